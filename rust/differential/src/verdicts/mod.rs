//! The library's verdict against the original's.

mod counts;
pub mod vectors;

pub use counts::Counts;

use crate::model::fields::number;
use crate::oracle::{self, Accepted, Judged, messages};
use sgub::{Header, Refusal, StreamPlayer};

/// What the library says of a file.
pub type Verdict = Result<Header, Refusal>;

/// The verdict of the library, or what the original says otherwise.
///
/// Where both accept, all that the original tells has to be the same. Where both refuse, the library's number has to be
/// among those that the original's message can stand for; the original has no places.
pub fn verdict(file: &[u8]) -> Result<Verdict, String> {
    let verdict = sgub::check(file);
    match (&verdict, oracle::judge(file)) {
        (Ok(header), Ok(judged)) => accepted(file, header, &judged)?,
        (Err(refusal), Err(message)) => refused(file, *refusal, &message)?,
        (_, Ok(_)) => return Err(format!("library {verdict:?}, original accepts")),
        (_, Err(message)) => return Err(format!("library {verdict:?}, original {message:?}")),
    }
    started(file, &verdict)?;
    Ok(verdict)
}

/// A start says of a file what the check says.
fn started(file: &[u8], verdict: &Verdict) -> Result<(), String> {
    let started = StreamPlayer::start(file);
    let same = match (&started, verdict) {
        (Ok(player), Ok(header)) => {
            (player.version(), player.frame_count(), player.repeats())
                == (header.version, header.frame_count, header.repeats)
                && (player.frame_period(), player.uses_si22())
                    == (header.frame_period, header.uses_si22)
                && player.card_requirements().len() == usize::from(header.card_count)
                && (0..)
                    .zip(player.card_requirements())
                    .all(|(index, card)| sgub::card(file, index) == Ok(Some(card)))
                && (player.frame_index(), player.is_finished()) == (0, false)
        }
        (Err(refusal), Err(same)) => refusal == same,
        _ => false,
    };
    if !same {
        return Err(format!(
            "library's check {verdict:?}, its start {started:?}"
        ));
    }
    Ok(())
}

fn refused(file: &[u8], refusal: Refusal, message: &str) -> Result<(), String> {
    let Refusal { number, place } = refusal;
    let numbers = messages::numbers(message);
    if !numbers.iter().any(|allowed| u32::from(*allowed) == number) {
        return Err(format!(
            "library {refusal:?}, original {message:?} {numbers:?}"
        ));
    }
    // All that the sheet says of a place without reading the file as the library does.
    let has_place = matches!(number, 7 | 10 | 11 | 13..=20);
    if place > file.len() || (place > 0) != has_place {
        return Err(format!(
            "library {refusal:?}, which is no place for this number"
        ));
    }
    Ok(())
}

fn accepted(file: &[u8], header: &Header, judged: &Judged) -> Result<(), String> {
    let original = judged.accepted();
    let facts = |header: &Header| {
        (
            (header.version, header.frame_count, header.repeats),
            (header.frame_period, header.uses_si22),
            (usize::from(header.card_count), header.pool_count as usize),
        )
    };
    let of_original = (
        (original.version, original.frame_count, original.repeats),
        (original.frame_period, original.uses_si22),
        (original.cards.len(), original.pools.len()),
    );
    if facts(header) != of_original {
        return Err(format!("library {header:?}, original {original:?}"));
    }
    own_fields(file, header)?;
    cards(file, &original)?;
    pools(file, header, judged)
}

/// What the original keeps to itself stands in the file, and an accepted file has the layout of its version.
fn own_fields(file: &[u8], header: &Header) -> Result<(), String> {
    let field = |at: usize| number(&file[at..at + 4]);
    let of_header = [
        header.initial_count,
        header.directory_offset,
        header.initial_start,
        header.frame_start,
        header.total_size,
    ];
    let of_file = match header.version {
        1 => [field(12), 20, 20, 20 + 5 * field(12), field(16)],
        _ => [16, 20, 24, 28, 32].map(field),
    };
    if of_header != of_file {
        return Err(format!("library {header:?}, file {of_file:?}"));
    }
    Ok(())
}

fn cards(file: &[u8], original: &Accepted) -> Result<(), String> {
    for (index, theirs) in original.cards.iter().enumerate() {
        let ours = sgub::card(file, index);
        let same = ours.is_ok_and(|card| {
            let Some(card) = card else { return false };
            (card.slot, card.name()) == (theirs.slot, theirs.id.as_slice())
                && (card.id_offset, card.bulk_start) == (theirs.id_offset, theirs.bulk_start)
                && card.bulk_length == theirs.bulk_length
                && card.id[theirs.id.len()..].iter().all(|byte| *byte == 0)
        });
        if !same {
            return Err(format!(
                "card {index}: library {ours:?}, original {theirs:?}"
            ));
        }
    }
    match sgub::card(file, original.cards.len()) {
        Ok(None) => Ok(()),
        other => Err(format!(
            "library {other:?}, which the original does not have"
        )),
    }
}

/// Every entry of the directory, and the payload of the first pool, the last, and the one behind it that is not there.
fn pools(file: &[u8], header: &Header, judged: &Judged) -> Result<(), String> {
    let entries =
        sgub::pools(file).map_err(|refusal| format!("library {refusal:?} for the pools"))?;
    if entries.len() != header.pool_count as usize {
        return Err(format!("library lists {} pools", entries.len()));
    }
    for (id, entry) in (0..=u16::MAX).zip(entries) {
        let part = file.get(entry.offset as usize..).unwrap_or(&[]);
        let payload = part.get(..entry.size as usize).unwrap_or(&[]);
        if judged.pool_payload(id) != Some((entry.kind, payload)) {
            return Err(format!("pool {id}: library {entry:?}, original another"));
        }
    }
    let last = header.pool_count.saturating_sub(1);
    for id in [0, last, header.pool_count, u32::from(u16::MAX)] {
        let Ok(id) = u16::try_from(id) else { continue };
        let pool = sgub::pool(file, id);
        let found = pool.map(|pool| pool.map(|pool| (pool.kind, pool.payload)));
        if found != Ok(judged.pool_payload(id)) {
            return Err(format!("pool {id}: library {pool:?}, original another"));
        }
    }
    Ok(())
}

#[cfg(test)]
mod tests {
    use super::*;
    use crate::examples::example;

    /// Changes each field of the header in turn.
    #[test]
    fn every_field_of_the_header_is_compared() {
        let changes: [fn(&mut Header); 12] = [
            |header| header.version ^= 1,
            |header| header.repeats ^= true,
            |header| header.uses_si22 ^= true,
            |header| header.card_count += 1,
            |header| header.frame_period += 1,
            |header| header.frame_count += 1,
            |header| header.pool_count += 1,
            |header| header.initial_count += 1,
            |header| header.directory_offset += 1,
            |header| header.initial_start += 1,
            |header| header.frame_start += 1,
            |header| header.total_size += 1,
        ];
        for name in ["tune-1", "tune-2", "bank-3", "cards-4"] {
            let file = example(name);
            let judged = oracle::judge(&file).unwrap();
            let Ok(Ok(header)) = verdict(&file) else {
                panic!("{name}");
            };
            for (index, change) in changes.iter().enumerate() {
                let mut changed = header;
                change(&mut changed);
                assert!(
                    accepted(&file, &changed, &judged).is_err(),
                    "{name} {index}"
                );
            }
        }
    }

    /// The library is asked about another file than the original.
    #[test]
    fn cards_and_payloads_are_compared() {
        let file = example("cards-4");
        let judged = oracle::judge(&file).unwrap();
        let Ok(header) = sgub::check(&file) else {
            panic!();
        };
        for at in [48, 55, 59, 63, 64, 128, 159, 160, 415, 416, 435] {
            let mut other = file.clone();
            other[at] ^= 1;
            assert!(accepted(&other, &header, &judged).is_err(), "{at}");
        }
    }

    /// Each fact of a start is compared with the check's, by a header in which it is another.
    #[test]
    fn a_start_is_compared_with_the_check() {
        let file = example("cards-4");
        let Ok(header) = sgub::check(&file) else {
            panic!();
        };
        started(&file, &Ok(header)).unwrap();
        let changes: [fn(&mut Header); 6] = [
            |header| header.version ^= 1,
            |header| header.repeats ^= true,
            |header| header.uses_si22 ^= true,
            |header| header.card_count += 1,
            |header| header.frame_period += 1,
            |header| header.frame_count += 1,
        ];
        for (index, change) in changes.iter().enumerate() {
            let mut changed = header;
            change(&mut changed);
            assert!(started(&file, &Ok(changed)).is_err(), "{index}");
        }
        let refused = |number, place| Err(Refusal { number, place });
        assert!(started(&file, &refused(7, 80)).is_err());
        let file = example("refused-7");
        started(&file, &refused(7, 80)).unwrap();
        assert!(started(&file, &refused(7, 48)).is_err());
        assert!(started(&file, &Ok(header)).is_err());
    }

    #[test]
    fn number_and_place_of_a_refusal_are_compared() {
        let file = [0; 100];
        let is_fine =
            |number, place, message| refused(&file, Refusal { number, place }, message).is_ok();
        assert!(is_fine(2, 0, "invalid SGUB magic"));
        assert!(!is_fine(3, 0, "invalid SGUB magic"));
        assert!(!is_fine(2, 1, "invalid SGUB magic"));
        assert!(is_fine(12, 0, "invalid SGUB v2 stream"));
        assert!(is_fine(14, 100, "invalid SGUB v2 stream"));
        assert!(!is_fine(14, 101, "invalid SGUB v2 stream"));
        assert!(!is_fine(14, 0, "invalid SGUB v2 stream"));
        assert!(!is_fine(2, 0, "a message that is not the original's"));
    }
}
