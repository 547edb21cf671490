//! A script and a net as bytes, found among the second program's histories,
//! and what can be asked of them.

use reference::gen::some_history;
use reference::random::Random;
use rewind::{call, Answer, NONE};

const SLOT: usize = 56;
const FIRST_SLOT: usize = 16;

#[derive(Clone)]
pub struct Images {
    pub script: Vec<u8>,
    pub net: Vec<u8>,
}

impl Images {
    fn slot(&self, key: usize) -> &[u8] {
        &self.net[FIRST_SLOT + SLOT * key..][..SLOT]
    }

    fn count(&self, wanted: impl Fn(u8) -> bool) -> usize {
        (0..64).filter(|&key| wanted(self.slot(key)[0])).count()
    }

    pub fn records(&self) -> usize {
        self.count(|kind| kind != 0)
    }

    pub fn events(&self) -> usize {
        self.count(|kind| kind == 2)
    }

    /// The request that repeats the event: its places as its record has them.
    fn repeat(&self, key: u8) -> [u8; 6] {
        let slot = self.slot(usize::from(key));
        [0, key, slot[5], slot[3], slot[4], slot[6]]
    }

    /// Undoes the event where that is allowed; the request that repeats it.
    fn undo(&mut self, key: u8) -> Option<[u8; 6]> {
        let again = self.repeat(key);
        let told = call(&self.script, &mut self.net, &backward(key));
        (told.answer == Answer::Done).then_some(again)
    }

    /// A backward step that is done, and the request that takes it again.
    pub fn there_and_back(&self) -> Option<Vec<u8>> {
        (0..64).find_map(|key| {
            let again = self.clone().undo(key)?;
            Some([backward(key), again].concat())
        })
    }

    /// A rollback that undoes about so many events, and the requests that
    /// take them again.
    pub fn rollback_and_again(&self, wanted: u8) -> Option<Vec<u8>> {
        let (key, undone) = (0..64)
            .map(|key| (key, self.undone_by(key)))
            .min_by_key(|&(_, undone)| undone.abs_diff(wanted))?;
        (undone.abs_diff(wanted) <= 2).then(|| self.rollback_of(key, undone))
    }

    fn undone_by(&self, key: u8) -> u8 {
        call(&self.script, &mut self.net.clone(), &rollback(key)).undone
    }

    /// The dependents are those whose undoing makes the rollback shorter.
    fn rollback_of(&self, key: u8, undone: u8) -> Vec<u8> {
        let mut here = self.clone();
        let mut taken = Vec::new();
        while taken.len() < usize::from(undone) {
            let left = here.undone_by(key);
            let next = (0..64).find_map(|other| {
                let mut there = here.clone();
                let again = there.undo(other)?;
                (other == key || there.undone_by(key) < left).then_some((there, again))
            });
            let Some((there, again)) = next else { break };
            here = there;
            taken.push(again);
        }
        taken.reverse();
        [vec![rollback(key)], taken].concat().concat()
    }
}

fn backward(key: u8) -> [u8; 6] {
    [1, key, NONE, NONE, NONE, NONE]
}

fn rollback(key: u8) -> [u8; 6] {
    [2, key, NONE, NONE, NONE, NONE]
}

/// The first history, from a seed on, of which something can be made.
pub fn search<T>(seed: u64, make: impl Fn(&Images) -> Option<T>) -> (Images, T) {
    let mut random = Random::new(seed);
    loop {
        let (script, net) = some_history(&mut random);
        let images = Images {
            script: script.write(),
            net: net.write(),
        };
        if let Some(made) = make(&images) {
            return (images, made);
        }
    }
}
