//! Lists of pairs that are answered in three columns: what `convert_all` and `char_offsets_all` share.

use crate::every;
use crate::guarded::Guarded;
use crate::library::{Columns, Offsets};
use crate::random::Random;
use crate::refusals::{LENGTH_MISMATCH, NO_ROOM, TOO_LONG};
use crate::tally::{self, Tally};

/// Both ends of each pair, and the sizes of the buffers for numbers, starts and ends.
pub struct List {
    pub from: Vec<u32>,
    pub to: Vec<u32>,
    pub rooms: [usize; 3],
}

impl List {
    /// In buffers that are just large enough.
    pub fn of(pairs: &[(u32, u32)]) -> Self {
        List { from: firsts(pairs), to: seconds(pairs), rooms: [pairs.len(); 3] }
    }

    /// In buffers that are large enough or not; now and then with one end too few or too many.
    pub fn any(pairs: &[(u32, u32)], random: &mut Random) -> Self {
        let mut list = List::of(pairs);
        for room in &mut list.rooms {
            *room = match random.below(8) {
                0 => random.below(pairs.len() + 1),
                1 | 2 => pairs.len() + random.below(100),
                _ => pairs.len(),
            };
        }
        match random.below(12) {
            0 => list.to.push(0),
            1 => _ = list.to.pop(),
            _ => {}
        }
        list
    }

    /// The refusal of a call that is passed this list, and beside it something that gives `beside` by itself.
    pub fn refusal(&self, beside: u32) -> u32 {
        let shortest = self.rooms.into_iter().min().expect("three rooms");
        match beside {
            TOO_LONG | LENGTH_MISMATCH => beside,
            _ if self.from.len() != self.to.len() => LENGTH_MISMATCH,
            0 if shortest < self.from.len() => NO_ROOM,
            _ => beside,
        }
    }

    pub fn pairs(&self) -> impl Iterator<Item = (u32, u32)> + '_ {
        self.from.iter().copied().zip(self.to.iter().copied())
    }
}

fn firsts(pairs: &[(u32, u32)]) -> Vec<u32> {
    pairs.iter().map(|&(from, _)| from).collect()
}

fn seconds(pairs: &[(u32, u32)]) -> Vec<u32> {
    pairs.iter().map(|&(_, to)| to).collect()
}

/// Lists of every two lengths to 3 out of `pairs`, in every three rooms to 4.
pub fn every_size(pairs: [(u32, u32); 3]) -> impl Iterator<Item = List> {
    every::pair(3).flat_map(move |(from, to)| {
        every::list(&[0, 1, 2, 3, 4], 3).map(move |rooms| List {
            from: firsts(&pairs[..from]),
            to: seconds(&pairs[..to]),
            rooms: [rooms[0], rooms[1], rooms[2]],
        })
    })
}

/// One call on a list: `ours` in guarded buffers, with the refusal that `beside` and the list give, each pair as
/// `single`, our call on that pair alone, and `theirs` answer it.
pub fn case(
    tally: &mut Tally,
    list: &List,
    beside: u32,
    ours: impl FnOnce(&[u32], &[u32], Columns) -> u32,
    single: impl Fn(u32, u32) -> Offsets,
    theirs: impl Fn(u32, u32) -> Offsets,
    describe: impl FnOnce() -> String,
) {
    let [mut starts, mut ends] = [list.rooms[1], list.rooms[2]].map(Guarded::new);
    let mut numbers = Guarded::new(list.rooms[0]);
    let out = Columns { numbers: numbers.part(), starts: starts.part(), ends: ends.part() };
    let refusal = ours(&list.from, &list.to, out);
    let expected = list.refusal(beside);
    let answers: Vec<Offsets> = match expected {
        0 => list.pairs().map(|(from, to)| theirs(from, to)).collect(),
        _ => vec![],
    };
    let differing = list.pairs().zip(&answers).find(|((from, to), answer)| single(*from, *to) != **answer);
    let holds = numbers.holds(&answers.iter().map(|answer| answer.refusal as u8).collect::<Vec<u8>>())
        && starts.holds(&answers.iter().map(|answer| answer.start).collect::<Vec<u32>>())
        && ends.holds(&answers.iter().map(|answer| answer.end).collect::<Vec<u32>>());
    tally.case(tally::refusal(refusal), refusal != expected || !holds || differing.is_some(), || {
        let wrong = answers.iter().enumerate().find(|(i, answer)| {
            (numbers.part()[*i], starts.part()[*i], ends.part()[*i]) != (answer.refusal as u8, answer.start, answer.end)
        });
        let columns = if holds { "equal" } else { "not equal" };
        let (from, to, rooms) = (list.from.len(), list.to.len(), list.rooms);
        format!(
            "ours {refusal}, theirs {expected}, columns {columns}, first wrong pair {:?}, first that a single call \
            answers otherwise {differing:?}, {from} starts and {to} ends in rooms {rooms:?}, on {}",
            wrong.map(|(i, answer)| (list.from[i], list.to[i], answer)),
            describe()
        )
    });
}
