//! Wrong programs for `serve --wrong`: the model with one fault put around it,
//! so that the comparison can be seen to tell each apart.

use crate::books::Rows;
use crate::demand3::Plain;
use crate::frames::{nearest_hundredth, parse, Answer, Field::*, Kind, Request};
use crate::frames::{ANGLES, NEW_ANGLES};
use crate::layout::{
    leg_of_newer, link_word, measure_word, newer_word, position, reading, Measure, Reading, Word,
    NOBODY,
};
use crate::model::{listed_targets, targets_by, Desk, Phase, Target, Ticket};

#[derive(Clone, Copy, Debug, PartialEq, Eq)]
pub enum Fault {
    /// "A step that says Waiting while the word is free" (once in a ticket).
    WaitingWhenFree,
    /// "giving back the new value"
    GivesBackNew,
    /// "claiming in the order in which an edit lists its words"
    ListingOrder,
    /// "claiming by word number instead of position"
    WordOrder,
    /// "a look showing a mark"
    ShowsMark,
    /// "f = r let through, a ticket waiting for itself"
    StrikesItself,
    /// "Tries invented": waits aren't counted.
    UncountedWaits,
    /// "One that claims the first word and merely reports the rest".
    ReportsOnly,
    /// Answers are written at the end of input only.
    Late,
    /// A view takes and notes a mark where it should wait.
    NotesMark,
    /// A view notes its words one after another and claims none.
    NotesOnly,
    /// A view shows its values in the order claimed.
    ClaimedOrder,
    /// A view shows the value of its first claim for all its words.
    FirstValue,
    /// A view shows its values with the last word not given back.
    KeepsWord,
    /// Waiting names the team that waits.
    WaiterNamed,
    /// Waiting names a team 16, which a mark of 2^63 + 16 would be.
    SixteenNamed,
    /// Waiting has team and word in each other's place.
    WordTeamExchanged,
    /// Only legs at clino 9,000 are plumb.
    PlumbUpOnly,
    /// Legs at clino 8,999 and -8,999 are plumb too.
    NearlyPlumb,
    /// Add writes a plumb leg's compass as sent.
    AddNotAdjusted,
    /// Correct quotes a plumb leg's compass as sent.
    OldNotAdjusted,
    /// Correct writes a plumb leg's compass as sent.
    NewNotAdjusted,
    /// Strike quotes a plumb leg's compass as sent.
    StrikeNotAdjusted,
    /// A plumb leg's compass may be out of range.
    PlumbRangeSkipped,
    /// A plumb leg's compass other than 0 is out of range.
    PlumbRefused,
    /// A plumb leg with another compass reads as one with 0.
    PlumbReads,
    /// A plumb leg reads as no leg.
    PlumbUnread,
    /// The check wants a bit for each leg that there was in three words a leg.
    ScratchOf168,
    /// The check wants a byte more than it needs.
    ScratchOf127,
    /// The check takes a byte less than it needs.
    ScratchOf125,
    /// The check doesn't look at newer words.
    NewerUnchecked,
    /// The check looks at the newer words of legs in use alone.
    UnusedNewerUnchecked,
    /// The check wants the next older leg in a newer word.
    NewerChecksOlder,
    /// Minutes are rounded down.
    RoundsDown,
    /// Minutes are rounded up.
    RoundsUp,
    /// Minutes are taken for hundredths.
    MinutesAsHundredths,
    /// Minutes are taken for two hundredths each.
    MinutesDoubled,
    /// Correct quotes its old figures in minutes rounded down, and writes the new ones
    /// rounded rightly.
    OldUnrounded,
    /// Correct writes its new figures in minutes rounded down, and quotes rightly.
    NewUnrounded,
    /// The new figures of a Correct in minutes are read as hundredths.
    NewInHundredths,
    /// The sign is read after the clino.
    SignAfterClino,
    /// Down zero is one hundredth down.
    DownZeroIsMinusOne,
    /// Down zero is out of range.
    DownZeroRefused,
    /// A minute of 60 is in range.
    SixtyMinutesPass,
    /// A sign of 2 is down.
    SignTwoIsDown,
    /// A clino of 90 degrees and minutes is in range, and plumb.
    NinetyAndMinutes,
    /// Angles in minutes are tested after 11.
    AnglesAfterStations,
    /// A plumb leg in minutes keeps its compass.
    MinutesNotAdjusted,
    /// Kinds 8 to 16 are refused for their length.
    KindsBetweenKnown,
    /// Kinds 17 and 18 of another length are refused for their kind.
    MinutesUnknownByLength,
    /// Add leaves the newer word of h.
    AddWithoutNewer,
    /// Move leaves the newer word of h.
    MoveWithoutNewer,
    /// Add and Move quote h for the newer word of h.
    FrontQuoted,
    /// Strike and Move claim the newer word of s and leave r there.
    OlderKeepsNewer,
    /// Strike and Move write 0 into the newer word of s, whatever f is.
    OlderBecomesNewest,
    /// Strike and Move claim the newer word of r and leave f there.
    NewerLeft,
    /// Move quotes s for the newer word of r.
    NewerQuotesOlder,
    /// Where f is 0, Strike and Move have no target for the newer word of r.
    NDropsZeroChange,
    /// Where h is 0, Add and Move have a target for the newer word of leg 1.
    NewerOfNone,
    /// Newer words of h and s are claimed behind all others.
    NewerLast,
    /// Legs, links and counts go to 1,344 and 1,343.
    LegsTo1344,
    /// A ticket of an edit with more than six targets isn't well made.
    SixTargets,
    /// A ticket of a view with up to nine targets is well made.
    NineNamed,
}

pub const FAULTS: [(&str, Fault); 63] = [
    ("waiting-when-free", Fault::WaitingWhenFree),
    ("gives-back-new", Fault::GivesBackNew),
    ("listing-order", Fault::ListingOrder),
    ("word-order", Fault::WordOrder),
    ("shows-mark", Fault::ShowsMark),
    ("strikes-itself", Fault::StrikesItself),
    ("uncounted-waits", Fault::UncountedWaits),
    ("reports-only", Fault::ReportsOnly),
    ("late", Fault::Late),
    ("notes-mark", Fault::NotesMark),
    ("notes-only", Fault::NotesOnly),
    ("claimed-order", Fault::ClaimedOrder),
    ("first-value", Fault::FirstValue),
    ("keeps-word", Fault::KeepsWord),
    ("waiter-named", Fault::WaiterNamed),
    ("sixteen-named", Fault::SixteenNamed),
    ("word-team-exchanged", Fault::WordTeamExchanged),
    ("plumb-up-only", Fault::PlumbUpOnly),
    ("nearly-plumb", Fault::NearlyPlumb),
    ("add-not-adjusted", Fault::AddNotAdjusted),
    ("old-not-adjusted", Fault::OldNotAdjusted),
    ("new-not-adjusted", Fault::NewNotAdjusted),
    ("strike-not-adjusted", Fault::StrikeNotAdjusted),
    ("plumb-range-skipped", Fault::PlumbRangeSkipped),
    ("plumb-refused", Fault::PlumbRefused),
    ("plumb-reads", Fault::PlumbReads),
    ("plumb-unread", Fault::PlumbUnread),
    ("scratch-168", Fault::ScratchOf168),
    ("scratch-127", Fault::ScratchOf127),
    ("scratch-125", Fault::ScratchOf125),
    ("newer-unchecked", Fault::NewerUnchecked),
    ("unused-newer-unchecked", Fault::UnusedNewerUnchecked),
    ("newer-checks-older", Fault::NewerChecksOlder),
    ("rounds-down", Fault::RoundsDown),
    ("rounds-up", Fault::RoundsUp),
    ("minutes-as-hundredths", Fault::MinutesAsHundredths),
    ("minutes-doubled", Fault::MinutesDoubled),
    ("old-unrounded", Fault::OldUnrounded),
    ("new-unrounded", Fault::NewUnrounded),
    ("new-in-hundredths", Fault::NewInHundredths),
    ("sign-after-clino", Fault::SignAfterClino),
    ("down-zero-is-minus-one", Fault::DownZeroIsMinusOne),
    ("down-zero-refused", Fault::DownZeroRefused),
    ("sixty-minutes-pass", Fault::SixtyMinutesPass),
    ("sign-2-is-down", Fault::SignTwoIsDown),
    ("ninety-and-minutes", Fault::NinetyAndMinutes),
    ("angles-after-stations", Fault::AnglesAfterStations),
    ("minutes-not-adjusted", Fault::MinutesNotAdjusted),
    ("kinds-between-known", Fault::KindsBetweenKnown),
    ("minutes-unknown-by-length", Fault::MinutesUnknownByLength),
    ("add-without-newer", Fault::AddWithoutNewer),
    ("move-without-newer", Fault::MoveWithoutNewer),
    ("front-quoted", Fault::FrontQuoted),
    ("older-keeps-newer", Fault::OlderKeepsNewer),
    ("older-becomes-newest", Fault::OlderBecomesNewest),
    ("newer-left", Fault::NewerLeft),
    ("newer-quotes-older", Fault::NewerQuotesOlder),
    ("n-drops-zero-change", Fault::NDropsZeroChange),
    ("newer-of-none", Fault::NewerOfNone),
    ("newer-last", Fault::NewerLast),
    ("legs-to-1344", Fault::LegsTo1344),
    ("six-targets", Fault::SixTargets),
    ("nine-named", Fault::NineNamed),
];

/// Faults that no stream can tell: of marks that only lent books have, of tickets that are
/// lent, of readings and of the check.
#[cfg(test)]
pub const NOT_OF_STREAMS: [Fault; 10] = [
    Fault::SixteenNamed,
    Fault::NineNamed,
    Fault::PlumbReads,
    Fault::PlumbUnread,
    Fault::ScratchOf168,
    Fault::ScratchOf127,
    Fault::ScratchOf125,
    Fault::NewerUnchecked,
    Fault::UnusedNewerUnchecked,
    Fault::NewerChecksOlder,
];

pub fn named(name: &str) -> Option<Fault> {
    FAULTS.iter().find(|(known, _)| *known == name).map(|(_, fault)| *fault)
}

/// What a program with this fault answers.
pub fn answer(fault: Fault, desk: &mut Desk, frame: &[u8]) -> Answer {
    let Ok(request) = parse(frame) else { return unread(fault, desk.answer(frame), frame) };
    let team = request.team();
    if let Some(refusal) = judged_otherwise(fault, desk, &request) {
        return refusal;
    }
    let stepping = request.kind == Kind::Step;
    let own = desk.tickets.get_mut(&team).filter(|ticket| stepping && ticket.well_made());
    if let Some(ticket) = own {
        if let Some(early) = before_step(fault, ticket, &desk.book) {
            return early;
        }
        let wrong = claim_of_view(fault, desk, team).or_else(|| last_of_view(fault, desk, team));
        if let Some(instead) = wrong {
            return instead;
        }
    }
    let answer = desk.answer(&read_otherwise(fault, sent_otherwise(fault, request)).bytes());
    let after = desk.tickets.get_mut(&team);
    match (fault, &answer, after) {
        (Fault::ListingOrder, Answer::Standing(_), Some(ticket)) => {
            ticket.targets = listed_targets(&request);
        }
        (Fault::WordOrder, Answer::Standing(_), Some(ticket)) => {
            ticket.targets = targets_by(&request, |word| word);
        }
        (Fault::UncountedWaits, Answer::Waiting(..), Some(ticket)) => ticket.tries -= 1,
        (Fault::WaiterNamed, Answer::Waiting(word, _), _) => return Answer::Waiting(*word, team),
        (Fault::SixteenNamed, Answer::Waiting(word, _), _)
            if desk.book[*word as usize] == Word::Marked(16) =>
        {
            return Answer::Waiting(*word, 16);
        }
        (Fault::WordTeamExchanged, Answer::Waiting(word, holder), _) => {
            return Answer::Waiting(*holder, *word);
        }
        (Fault::ShowsMark, Answer::Held, _) => {
            return Answer::Value(desk.book[request.get(Looked) as usize].bits());
        }
        (Fault::StrikesItself, Answer::Refused(11), None)
            if request.kind == Kind::Strike && request.get(F) == request.get(R) =>
        {
            let ticket = Ticket::opened(&request, &desk.ranks);
            let n = ticket.n;
            desk.tickets.insert(team, ticket);
            return Answer::Standing(n);
        }
        (Fault::LegsTo1344, Answer::Refused(10), None) if !beyond_1344(&request) => {
            let ticket = Ticket::opened(&request, &desk.ranks);
            let n = ticket.n;
            desk.tickets.insert(team, ticket);
            return Answer::Standing(n);
        }
        (Fault::ClaimedOrder, Answer::Standing(_), Some(ticket)) if request.kind == Kind::View => {
            ticket.targets.iter_mut().for_each(|target| target.new = Word::Value(target.word));
        }
        (_, Answer::Standing(_), Some(ticket)) => {
            write_otherwise(fault, &request, ticket);
            list_otherwise(fault, &request.in_hundredths(), ticket, &desk.ranks);
            return Answer::Standing(ticket.n);
        }
        _ => {}
    }
    answer
}

/// A refusal that comes from another rule for tickets that are well made.
fn judged_otherwise(fault: Fault, desk: &Desk, request: &Request) -> Option<Answer> {
    let ticket = desk.tickets.get(&request.team()).filter(|_| request.kind != Kind::Look)?;
    let views = matches!(ticket.phase, Phase::Viewing | Phase::Viewed);
    let opens = !matches!(request.kind, Kind::Step | Kind::Look);
    match fault {
        Fault::SixTargets if !views && ticket.n > 6 => Some(Answer::Refused(7)),
        Fault::NineNamed if views && (7..=9).contains(&ticket.n) && opens => {
            Some(Answer::Refused(8))
        }
        _ => None,
    }
}

/// Whether a field is out of range by the limits that legs and counts had before.
fn beyond_1344(request: &Request) -> bool {
    let before = |field: &crate::frames::Field| match field {
        F | R | S | H => request.get(*field) > 1_344 || (*field == R && request.get(R) == 0),
        C if request.in_hundredths().kind == Kind::Add => request.get(C) > 1_343,
        C => !(1..=1_344).contains(&request.get(C)),
        D => request.get(D) > 1_343,
        _ => true,
    };
    request.muddled() || request.beyond().iter().any(before)
}

/// The targets of newer words by another rule.
fn list_otherwise(fault: Fault, edit: &Request, ticket: &mut Ticket, ranks: &[i64]) {
    let [f, r, s, h] = [F, R, S, H].map(|field| edit.get(field));
    let of = |leg: i64| move |target: &Target| leg != 0 && target.word == newer_word(leg);
    let strikes = matches!(edit.kind, Kind::Strike | Kind::Move);
    let fronts = matches!(edit.kind, Kind::Add | Kind::Move);
    let targets = &mut ticket.targets;
    let mut sorted = true;
    match (fault, edit.kind) {
        (Fault::AddWithoutNewer, Kind::Add) => targets.retain(|target| !of(h)(target)),
        (Fault::MoveWithoutNewer, Kind::Move) => targets.retain(|target| !of(h)(target)),
        (Fault::NDropsZeroChange, _) if strikes && f == 0 => {
            targets.retain(|target| !of(r)(target));
        }
        (Fault::NewerOfNone, _) if fronts && h == 0 => targets.push(Target {
            word: newer_word(1),
            quoted: Word::Value(0),
            new: Word::Value(r),
        }),
        (Fault::NewerLast, _) => {
            let ends = |target: &Target| (fronts && of(h)(target)) || (strikes && of(s)(target));
            targets.sort_by_key(ends);
            sorted = false;
        }
        _ => {}
    }
    for target in targets.iter_mut() {
        match fault {
            Fault::FrontQuoted if fronts && of(h)(target) => target.quoted = Word::Value(h),
            Fault::OlderKeepsNewer if strikes && of(s)(target) => target.new = Word::Value(r),
            Fault::OlderBecomesNewest if strikes && of(s)(target) => target.new = Word::Value(0),
            Fault::NewerLeft if strikes && of(r)(target) => target.new = Word::Value(f),
            Fault::NewerQuotesOlder if edit.kind == Kind::Move && of(r)(target) => {
                target.quoted = Word::Value(s);
            }
            _ => {}
        }
    }
    if sorted && edit.kind != Kind::View {
        targets.sort_by_key(|target| position(ranks, target.word));
    }
    ticket.n = ticket.targets.len() as i64;
}

/// The refusal of a frame of another kind or length.
fn unread(fault: Fault, right: Answer, frame: &[u8]) -> Answer {
    match (fault, frame.get(2..4), &right) {
        (Fault::KindsBetweenKnown, Some([8..=16, 0]), Answer::Refused(4)) => Answer::Refused(5),
        (Fault::MinutesUnknownByLength, Some([17 | 18, 0]), Answer::Refused(5)) => {
            Answer::Refused(4)
        }
        _ => right,
    }
}

/// An edit in minutes as a program reads it, in hundredths where another figure comes
/// out.
fn read_otherwise(fault: Fault, request: Request) -> Request {
    if request.kind.in_hundredths().is_none() {
        return request;
    }
    let mut read = request;
    [ANGLES, NEW_ANGLES].into_iter().for_each(|angles| read_angles(fault, &mut read, angles));
    if fault == Fault::AnglesAfterStations && read.muddled() {
        ANGLES.into_iter().chain(NEW_ANGLES).for_each(|field| read.set(field, 0));
    }
    if read.out_of_range() {
        return read;
    }
    let down: fn(i64, i64) -> i64 = |degrees, minutes| 100 * degrees + 5 * minutes / 3;
    let mut rounded = match fault {
        Fault::RoundsDown | Fault::OldUnrounded | Fault::NewUnrounded => read.rounded_by(down),
        Fault::RoundsUp => {
            read.rounded_by(|degrees, minutes| 100 * degrees + (5 * minutes + 2) / 3)
        }
        Fault::MinutesAsHundredths => read.rounded_by(|degrees, minutes| 100 * degrees + minutes),
        Fault::MinutesDoubled => read.rounded_by(|degrees, minutes| 100 * degrees + 2 * minutes),
        _ => read.rounded_by(nearest_hundredth),
    };
    set_figures(fault, &read, &mut rounded);
    rounded
}

/// Figures in hundredths that a program gets otherwise than by its rule for the others.
fn set_figures(fault: Fault, read: &Request, rounded: &mut Request) {
    let right = read.in_hundredths();
    match fault {
        Fault::OldUnrounded => {
            [NewCompass, NewClino].into_iter().for_each(|at| rounded.set(at, right.get(at)));
        }
        Fault::NewUnrounded => {
            [Compass, Clino].into_iter().for_each(|at| rounded.set(at, right.get(at)));
        }
        Fault::NewInHundredths => {
            rounded.set(NewCompass, read.get(NewCompassDegrees));
            rounded.set(NewClino, read.get(NewCompassMinutes));
        }
        Fault::DownZeroIsMinusOne => {
            for (sign, clino) in [(Sign, Clino), (NewSign, NewClino)] {
                if read.get(sign) == 1 && rounded.get(clino) == 0 {
                    rounded.set(clino, -1);
                }
            }
        }
        _ => {}
    }
}

/// The fields of one measure in minutes as a program takes them.
fn read_angles(fault: Fault, read: &mut Request, angles: [crate::frames::Field; 5]) {
    let [degrees, minutes, sign, up, up_minutes] = angles;
    let sent = angles.map(|field| read.get(field));
    match fault {
        Fault::SignAfterClino => {
            [(up, sent[2]), (up_minutes, sent[3]), (sign, sent[4])]
                .into_iter()
                .for_each(|(field, value)| read.set(field, value));
        }
        Fault::DownZeroRefused if sent[2..] == [1, 0, 0] => read.set(sign, 2),
        Fault::SixtyMinutesPass => {
            for (whole, part) in [(degrees, minutes), (up, up_minutes)] {
                if read.get(part) == 60 {
                    read.set(whole, read.get(whole) + 1);
                    read.set(part, 0);
                }
            }
        }
        Fault::SignTwoIsDown if sent[2] == 2 => read.set(sign, 1),
        Fault::NinetyAndMinutes if sent[3] == 90 && sent[4] < 60 => read.set(up_minutes, 0),
        _ => {}
    }
}

/// The request with a plumb leg's compass, where a program takes another for its range.
fn sent_otherwise(fault: Fault, mut request: Request) -> Request {
    let measures = [(Compass, request.measure()), (NewCompass, request.new_measure())];
    for (field, measure) in measures.into_iter().filter(|(_, measure)| measure.plumb()) {
        match fault {
            Fault::PlumbRangeSkipped => request.set(field, 0),
            Fault::PlumbRefused if measure.compass != 0 => request.set(field, 36_000),
            _ => {}
        }
    }
    request
}

/// Measures in a ticket's targets by another rule for the compass.
fn write_otherwise(fault: Fault, request: &Request, ticket: &mut Ticket) {
    let edit = request.in_hundredths();
    let written = |measure: Measure, adjusted: bool| {
        let compass = if adjusted { 0 } else { measure.compass };
        Word::Value(Measure { compass, ..measure }.written())
    };
    let adjusted = |measure: Measure| match fault {
        Fault::PlumbUpOnly => measure.clino == 9_000,
        Fault::NearlyPlumb => measure.clino.abs() >= 8_999,
        _ => false,
    };
    let (sent, new) = (edit.measure(), edit.new_measure());
    let in_minutes = request.kind.in_hundredths().is_some();
    let rule = matches!(fault, Fault::PlumbUpOnly | Fault::NearlyPlumb)
        || (fault == Fault::MinutesNotAdjusted && in_minutes);
    for target in ticket.targets.iter_mut().filter(|t| t.word == measure_word(edit.get(R))) {
        match edit.kind {
            Kind::Add if rule || fault == Fault::AddNotAdjusted => {
                target.new = written(sent, adjusted(sent));
            }
            Kind::Strike if rule || fault == Fault::StrikeNotAdjusted => {
                target.quoted = written(sent, adjusted(sent));
            }
            Kind::Correct => {
                if rule || fault == Fault::OldNotAdjusted {
                    target.quoted = written(sent, adjusted(sent));
                }
                if rule || fault == Fault::NewNotAdjusted {
                    target.new = written(new, adjusted(new));
                }
            }
            _ => {}
        }
    }
}

/// What a program with this fault reads.
pub fn read(fault: Option<Fault>, place: u64, measure: u64) -> Option<Reading> {
    match fault {
        Some(Fault::PlumbReads) => reading(place, without_plumb_compass(measure)),
        Some(Fault::PlumbUnread) => reading(place, measure).filter(|leg| !leg.measure.plumb()),
        _ => reading(place, measure),
    }
}

/// The bytes of scratch that a check with this fault wants.
pub fn scratch(fault: Option<Fault>, right: i64) -> i64 {
    match fault {
        Some(Fault::ScratchOf168) => 168,
        Some(Fault::ScratchOf127) => 127,
        Some(Fault::ScratchOf125) => 125,
        _ => right,
    }
}

/// What a check with this fault wants in a word where it found this.
pub fn wanted(fault: Option<Fault>, plain: &Plain, word: i64, right: i64, found: Word) -> Word {
    match (fault, leg_of_newer(word)) {
        (Some(Fault::NewerUnchecked), Some(_)) => found,
        (Some(Fault::UnusedNewerUnchecked), Some(leg)) if plain.find(leg).is_none() => found,
        (Some(Fault::NewerChecksOlder), Some(leg)) => Word::Value(plain.word(link_word(leg))),
        _ => Word::Value(right),
    }
}

/// A book as a check with this fault takes it.
pub fn book(fault: Option<Fault>, book: &[Word], rows: &Rows) -> Vec<Word> {
    let mut taken = book.to_vec();
    if fault == Some(Fault::PlumbReads) {
        for measure in (1..=rows.last).map(|leg| (rows.link)(leg) as usize + 2) {
            taken[measure] = Word::of_bits(without_plumb_compass(taken[measure].bits()));
        }
    }
    taken
}

/// The measure's word with compass 0 if its clino is plumb.
fn without_plumb_compass(measure: u64) -> u64 {
    match measure >> 33 {
        0 | 18_000 => measure & !(0xFFFF << 17),
        _ => measure,
    }
}

/// Changes a ticket before its step, or answers in place of the step.
fn before_step(fault: Fault, ticket: &mut Ticket, book: &[Word]) -> Option<Answer> {
    let next = ticket.targets[ticket.claimed.min(ticket.n - 1) as usize];
    match fault {
        Fault::WaitingWhenFree if ticket.tries == 1 && ticket.claimed == 1 => {
            ticket.tries += 1;
            Some(Answer::Waiting(next.word, NOBODY))
        }
        Fault::GivesBackNew if ticket.phase == Phase::GivingBack => {
            ticket.targets.iter_mut().for_each(|target| target.quoted = target.new);
            None
        }
        Fault::ReportsOnly if ticket.phase == Phase::Claiming && ticket.claimed > 0 => {
            let free = book[next.word as usize] == next.quoted;
            (free && ticket.claimed + 1 < ticket.n).then(|| {
                ticket.tries += 1;
                ticket.claimed += 1;
                Answer::Claimed(ticket.claimed)
            })
        }
        _ => None,
    }
}

/// A claim of a view that should have waited, or should have left its mark.
fn claim_of_view(fault: Fault, desk: &mut Desk, team: i64) -> Option<Answer> {
    let ticket = desk.tickets.get_mut(&team).filter(|ticket| ticket.phase == Phase::Viewing)?;
    let target = &mut ticket.targets[ticket.claimed as usize];
    let word = &mut desk.book[target.word as usize];
    let left = match (fault, *word) {
        (Fault::NotesMark, Word::Marked(_)) => Word::Marked(team),
        (Fault::NotesOnly, Word::Value(_)) => *word,
        _ => return None,
    };
    target.quoted = std::mem::replace(word, left);
    ticket.tries += 1;
    ticket.claimed += 1;
    if ticket.claimed == ticket.n {
        (ticket.phase, ticket.done) = (Phase::Viewed, 0);
    }
    Some(Answer::Claimed(ticket.claimed))
}

/// The last step of a view, with other values or without its swap.
fn last_of_view(fault: Fault, desk: &mut Desk, team: i64) -> Option<Answer> {
    let ticket = desk.tickets.get(&team)?;
    if ticket.phase != Phase::Viewed || ticket.done + 1 < ticket.n {
        return None;
    }
    let (first, n) = (ticket.targets[0].quoted.bits(), ticket.n);
    let step = Request::step(team).bytes();
    match fault {
        Fault::FirstValue => {
            desk.answer(&step);
            Some(Answer::Seen(vec![first; n as usize]))
        }
        Fault::KeepsWord => {
            let answer = desk.clone().answer(&step);
            desk.tickets.remove(&team);
            Some(answer)
        }
        _ => None,
    }
}
