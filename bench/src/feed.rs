//! Request Seven of document 02, "feed the replay as the day goes": logs of
//! 4,096 releases in pieces of up to 64, beside the whole replay of the same log
//! in the same run. The goal is that the pieces together take at most twice as
//! long as the whole.

use std::hint::black_box;

use peer::Lent;
use wistorvan::{Checkpoint, MAX_WAITING, NOT_BEGUN};

use crate::replay::{even_log, first_releases, loaded, morning, Traffic, SHEET_A};
use crate::{median, sheet};

/// The most releases of a piece.
const RELEASES: usize = 64;

/// Two words a release, and the horizon.
type Piece<'a> = (&'a [u32], u32);

/// A log in pieces, each up to the tick of the next one's first release, and the
/// last up to the whole horizon. Releases of one tick stay together.
fn pieces(traffic: &Traffic) -> Vec<Piece<'_>> {
    let mut pieces = Vec::new();
    let mut rest = &traffic.log[..];
    while rest.len() > 2 * RELEASES {
        let tick = |release: usize| rest[2 * release];
        let cut = (1..=RELEASES).rev().find(|&cut| tick(cut - 1) < tick(cut));
        let cut = cut.expect("no more releases at one tick than a piece has");
        pieces.push((&rest[..2 * cut], tick(cut)));
        rest = &rest[2 * cut..];
    }
    pieces.push((rest, traffic.horizon));
    pieces
}

/// Replays all pieces and shows what each one has begun and left.
fn by_proved(sheet: &[u32], pieces: &[Piece], mut show: impl FnMut(&[u32], &Checkpoint)) {
    let (mut checkpoint, mut room) = (Checkpoint::fresh(), [0; 2 * MAX_WAITING]);
    for &(piece, horizon) in pieces {
        let answer = wistorvan::raw::resume(sheet, piece, horizon, &mut checkpoint, &mut room);
        assert_eq!(answer.number, 0);
        show(&room[..2 * answer.second as usize], &checkpoint);
    }
}

fn by_second(sheet: &[u32], pieces: &[Piece]) -> peer::Checkpoint {
    let (mut record, mut room) = (peer::Checkpoint::fresh(), [0; 2 * MAX_WAITING]);
    for &(piece, horizon) in pieces {
        let lent = Lent {
            sheet,
            piece,
            horizon,
        };
        let answer = peer::resume(&lent, &mut record, &mut room);
        assert_eq!(answer.number, 0);
    }
    record
}

/// The pieces joined must be the whole replay. Answers how many wait after each
/// piece.
fn check(traffic: &Traffic, pieces: &[Piece]) -> Vec<u32> {
    let releases = traffic.log.len() / 2;
    let mut whole = vec![0; releases];
    let Traffic {
        sheet,
        log,
        horizon,
    } = traffic;
    let answer = wistorvan::raw::replay(sheet, log, *horizon, &mut whole);
    let (mut begins, mut waiting) = (vec![NOT_BEGUN; releases], vec![]);
    let mut end = (0, 0);
    by_proved(sheet, pieces, |begun, checkpoint| {
        for words in begun.chunks_exact(2) {
            begins[words[0] as usize - 1] = words[1];
        }
        waiting.push(checkpoint.waiting);
        end = (checkpoint.turns, checkpoint.tick);
    });
    let record = by_second(sheet, pieces);
    assert_eq!(begins, whole);
    assert_eq!((0, end), (answer.number, (answer.second, answer.third)));
    assert_eq!(end, (record.turns, record.tick));
    waiting
}

fn feed_row(what: &str, traffic: &Traffic) {
    let pieces = pieces(traffic);
    let waiting = check(traffic, &pieces);
    let Traffic {
        sheet,
        log,
        horizon,
    } = traffic;
    let joined = median(|| {
        by_proved(black_box(sheet), black_box(&pieces), |begun, checkpoint| {
            black_box((begun, checkpoint));
        });
    });
    let mut room = vec![0; log.len() / 2];
    let whole = median(|| {
        let (sheet, log) = (black_box(sheet), black_box(log));
        black_box(wistorvan::raw::replay(sheet, log, *horizon, &mut room));
    });
    let second = median(|| {
        black_box(by_second(black_box(sheet), black_box(&pieces)));
    });
    // Without the first and the last tenth, in which it fills and empties.
    let steady = &waiting[waiting.len() / 10..waiting.len() - waiting.len() / 10];
    println!(
        "{what}, {} pieces, {} to {} waiting after each: pieces {:.3} ms, whole {:.3} ms, pieces / whole {:.2}; \
         second program's pieces {:.3} ms, second / proved {:.2}",
        pieces.len(),
        steady.iter().min().unwrap_or(&0),
        steady.iter().max().unwrap_or(&0),
        joined / 1e6,
        whole / 1e6,
        joined / whole,
        second / 1e6,
        second / joined
    );
}

/// Sixteen nodes that take one message in each turn: first more come than are
/// taken, one a tick, and then just as many, one in the six ticks of a message
/// and its slot.
fn congested() -> Traffic {
    const FIRST: u32 = 205;
    let nodes: Vec<(u32, Vec<(u32, u32)>)> =
        (0..16).map(|_| (1, vec![(1_000, 1_000); 4])).collect();
    let tick = |release: u32| match release.checked_sub(FIRST) {
        None => release,
        Some(later) => FIRST + 6 * later,
    };
    // A stream of each node in turn.
    let stream = |release: u32| 1 + 4 * (release % 16) + release / 16 % 4;
    let log = (0..4_096).flat_map(|release| [tick(release), stream(release)]);
    first_releases(sheet(5, 1, &nodes), log.collect())
}

pub fn feed() {
    let far = 1_000_000_000;
    let even = Traffic {
        sheet: SHEET_A.to_vec(),
        log: even_log(4_096, far),
        horizon: far,
    };
    feed_row("sheet A, 4,096 releases evenly, horizon 10^9", &even);
    feed_row("a morning of 4,096 releases, sixteen nodes", &morning());
    let Traffic { sheet, log, .. } = loaded(28_000);
    let loaded = first_releases(sheet, log);
    feed_row("a bus loaded to nine tenths, 4,096 releases", &loaded);
    feed_row(
        "a congested bus, sixteen nodes, 4,096 releases",
        &congested(),
    );
}
