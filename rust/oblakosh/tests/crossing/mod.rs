//! Document 01's sheets, plans and moves with #102's stop line in the plainest form, #105's chain, and random ones: nothing here calls the
//! library.
#![allow(dead_code)] // no test uses all of it
use crate::numbers::Numbers;
use oblakosh::{Moved, NotMoved, Record, Refusal, CARTS};
use std::collections::HashSet;

/// A crossing with its plan. Times and gaps are of no weight for moves; they are made up when the sheet is written.
pub struct Crossing {
    /// Each cart's lane.
    pub lanes: Vec<u8>,
    /// The zones of each cart's steps.
    pub routes: Vec<Vec<usize>>,
    /// Each zone's carts, first through first.
    pub lists: Vec<Vec<usize>>,
}

/// A chain: its carts, and the zones that they want; the last cart has none if it is to move out.
#[derive(Debug, PartialEq, Eq)]
pub struct Links {
    pub carts: Vec<u8>,
    pub zones: Vec<u8>,
}

pub fn shuffled(numbers: &mut Numbers, count: usize) -> Vec<usize> {
    let mut left: Vec<usize> = (0..count).collect();
    (0..count)
        .map(|taken| left.remove(numbers.below(count - taken)))
        .collect()
}

pub fn refused(number: u32) -> Result<Moved, NotMoved> {
    Err(NotMoved::Refused(Refusal {
        number,
        cart: 0,
        step: 0,
        place: 0,
    }))
}

/// The bytes with their length in bytes 1 and 2.
fn measured(mut bytes: Vec<u8>) -> Vec<u8> {
    let length = bytes.len() as u16;
    bytes[1..3].copy_from_slice(&length.to_be_bytes());
    bytes
}

/// Random crossings.
impl Crossing {
    /// Carts up to so many, with routes of up to so many steps over up to so many zones; the lists are empty.
    pub fn random(numbers: &mut Numbers, carts: usize, steps: usize, zones: usize) -> Crossing {
        let (carts, zones) = (numbers.below(carts + 1), 1 + numbers.below(zones));
        let (steps, lanes) = (steps.min(zones), 1 + numbers.below(CARTS));
        let route = |numbers: &mut Numbers| {
            let mut route = shuffled(numbers, zones);
            route.truncate(1 + numbers.below(steps));
            route
        };
        Crossing {
            lanes: (0..carts).map(|_| numbers.below(lanes) as u8).collect(),
            routes: (0..carts).map(|_| route(numbers)).collect(),
            lists: vec![vec![]; zones],
        }
    }

    /// All carts in a random order, those of one lane by number.
    fn order(&self, numbers: &mut Numbers) -> Vec<usize> {
        let mut left: Vec<usize> = (0..self.carts()).collect();
        (0..self.carts())
            .map(|taken| {
                let lane = self.lanes[left[numbers.below(self.carts() - taken)]];
                let first = left.iter().position(|cart| self.lanes[*cart] == lane);
                left.remove(first.unwrap())
            })
            .collect()
    }

    fn visitors(&self, zone: usize, order: &[usize]) -> Vec<usize> {
        let visits = |cart: &usize| self.routes[*cart].contains(&zone);
        order.iter().copied().filter(visits).collect()
    }

    /// Every zone's list in one order of the carts. The first of them that is not out may always move.
    pub fn listed_in_one_order(mut self, numbers: &mut Numbers) -> Crossing {
        let order = self.order(numbers);
        for zone in 0..self.lists.len() {
            self.lists[zone] = self.visitors(zone, &order);
        }
        self
    }

    /// Each zone's list in an order of its own: the plan may be locked.
    pub fn listed_anyhow(mut self, numbers: &mut Numbers) -> Crossing {
        for zone in 0..self.lists.len() {
            let order = self.order(numbers);
            self.lists[zone] = self.visitors(zone, &order);
        }
        self
    }

    /// Each zone's list as the carts of a random drive come to it, with fewer carts inside at once where they block each other.
    pub fn listed_as_driven(mut self, numbers: &mut Numbers) -> Crossing {
        let lists = (1..=CARTS)
            .rev()
            .find_map(|most| self.driven(numbers, most));
        self.lists = lists.unwrap();
        self
    }

    /// The lists of a drive with so many carts inside at most; none where they block each other.
    fn driven(&self, numbers: &mut Numbers, most: usize) -> Option<Vec<Vec<usize>>> {
        let mut at = vec![0; self.carts()];
        let mut lists = vec![vec![]; self.lists.len()];
        while !self.all_out(&at) {
            let may: Vec<usize> = (0..self.carts())
                .filter(|cart| self.may_drive(&at, &lists, most, *cart))
                .collect();
            if may.is_empty() {
                return None;
            }
            let cart = may[numbers.below(may.len())];
            if let Some(zone) = self.wanted(&at, cart) {
                lists[zone].push(cart);
            }
            at[cart] += 1;
        }
        Some(lists)
    }

    /// Whether the cart may drive on: out; or into an empty zone where all carts in front of it on its lane have been that come
    /// there. It leaves the lane after these, and only if there is room inside.
    fn may_drive(&self, at: &[usize], lists: &[Vec<usize>], most: usize, cart: usize) -> bool {
        let zone = match self.wanted(at, cart) {
            Some(zone) => zone,
            None => return at[cart] < self.out(cart),
        };
        let stands: Vec<usize> = (0..self.carts())
            .filter_map(|cart| self.standing(at, cart))
            .collect();
        let in_front: Vec<usize> = (0..cart)
            .filter(|other| self.lanes[*other] == self.lanes[cart])
            .collect();
        !stands.contains(&zone)
            && self
                .visitors(zone, &in_front)
                .iter()
                .all(|other| lists[zone].contains(other))
            && (at[cart] > 0 || stands.len() < most && in_front.iter().all(|other| at[*other] > 0))
    }
}

/// The bytes.
impl Crossing {
    pub fn sheet(&self, numbers: &mut Numbers) -> Vec<u8> {
        let mut time = || (numbers.below(60_001) as u16).to_be_bytes();
        let mut bytes = vec![1, 0, 0, self.lists.len() as u8];
        for _ in &self.lists {
            bytes.extend(time());
            bytes.extend(time());
        }
        bytes.push(self.carts() as u8);
        for (cart, route) in self.routes.iter().enumerate() {
            bytes.push(self.lanes[cart]);
            bytes.extend((cart as u32 * 200_000).to_be_bytes());
            bytes.push(route.len() as u8);
            for (step, zone) in route.iter().enumerate() {
                bytes.push(*zone as u8);
                bytes.extend(time());
                bytes.extend(if step + 1 < route.len() {
                    time()
                } else {
                    [0, 0]
                });
            }
        }
        measured(bytes)
    }

    pub fn plan(&self) -> Vec<u8> {
        let mut bytes = vec![1, 0, 0, self.lists.len() as u8];
        for list in &self.lists {
            bytes.push(list.len() as u8);
            bytes.extend(list.iter().map(|cart| *cart as u8));
        }
        measured(bytes)
    }

    /// The record of these positions, with the moves that it took to come there.
    pub fn record(&self, at: &[usize]) -> Record {
        let mut record = Record {
            position: [0; CARTS],
            made: at.iter().sum::<usize>() as u32,
        };
        for (position, k) in record.position.iter_mut().zip(at) {
            *position = *k as u8;
        }
        record
    }
}

/// The rules.
impl Crossing {
    pub fn carts(&self) -> usize {
        self.routes.len()
    }

    pub fn steps(&self) -> usize {
        self.routes.iter().map(Vec::len).sum()
    }

    /// The position of a cart that is out.
    pub fn out(&self, cart: usize) -> usize {
        self.routes[cart].len() + 1
    }

    pub fn all_out(&self, at: &[usize]) -> bool {
        (0..self.carts()).all(|cart| at[cart] == self.out(cart))
    }

    /// The zone that the cart stands in, if it is neither on the lane nor out.
    fn standing(&self, at: &[usize], cart: usize) -> Option<usize> {
        let step = at[cart].checked_sub(1)?;
        self.routes[cart].get(step).copied()
    }

    pub fn no_two_in_one_zone(&self, at: &[usize]) -> bool {
        let mut taken = HashSet::new();
        (0..self.carts())
            .filter_map(|cart| self.standing(at, cart))
            .all(|zone| taken.insert(zone))
    }

    /// The zone that the cart's next move is into, if it is not the move out.
    fn wanted(&self, at: &[usize], cart: usize) -> Option<usize> {
        self.routes[cart].get(at[cart]).copied()
    }

    fn has_left(&self, at: &[usize], cart: usize, zone: usize) -> bool {
        let step = self.routes[cart].iter().position(|other| *other == zone);
        at[cart] > step.unwrap() + 1
    }

    /// The next lower-numbered cart of the cart's lane.
    pub fn front(&self, cart: usize) -> Option<usize> {
        (0..cart).rfind(|other| self.lanes[*other] == self.lanes[cart])
    }

    /// That cart, if both wait on the lane.
    fn held_by_lane(&self, at: &[usize], cart: usize) -> Option<usize> {
        self.front(cart)
            .filter(|front| at[cart] == 0 && at[*front] == 0)
    }

    /// How many carts ahead have not left the zone.
    fn ahead(&self, at: &[usize], cart: usize, zone: usize) -> usize {
        let list = &self.lists[zone];
        let place = list.iter().position(|other| *other == cart).unwrap();
        list[..place]
            .iter()
            .filter(|other| !self.has_left(at, **other, zone))
            .count()
    }

    /// What a request is answered in a position that a run reaches: 24, 25, 26 or done. "A move into a zone is permitted
    /// when every cart ahead in that zone's list has left it. The move out is always permitted." "A cart's first move now
    /// also waits until the next lower-numbered cart of its lane has made its first move".
    pub fn answer(&self, at: &[usize], cart: usize) -> Result<Moved, NotMoved> {
        if cart >= self.carts() {
            return refused(24);
        }
        if at[cart] == self.out(cart) {
            return refused(25);
        }
        let in_zone = self
            .wanted(at, cart)
            .map_or(0, |zone| self.ahead(at, cart, zone));
        match in_zone + usize::from(self.held_by_lane(at, cart).is_some()) {
            0 => Ok(Moved {
                position: at[cart] as u8 + 1,
                made: at.iter().sum::<usize>() as u32 + 1,
            }),
            held => Err(NotMoved::Held(held as u32)),
        }
    }

    /// Who holds the cart in a position that a run reaches, if it may not move. "a cart held by the lane points to that front cart
    /// before any cart in the zone list"; otherwise "to the first cart in that zone's list which hasn't left it".
    fn holder(&self, at: &[usize], cart: usize) -> Option<usize> {
        let zone = self.wanted(at, cart)?;
        let mut list = self.lists[zone].iter().copied();
        let first = list.find(|other| !self.has_left(at, *other, zone));
        self.held_by_lane(at, cart)
            .or(first.filter(|other| *other != cart))
    }

    /// The chain from a cart that is not out, "down to a cart that may move now".
    pub fn chain(&self, at: &[usize], cart: usize) -> Links {
        let mut carts = vec![cart];
        while let Some(holder) = self.holder(at, carts[carts.len() - 1]) {
            carts.push(holder);
        }
        Links {
            zones: carts
                .iter()
                .filter_map(|cart| self.wanted(at, *cart))
                .map(|zone| zone as u8)
                .collect(),
            carts: carts.iter().map(|cart| *cart as u8).collect(),
        }
    }

    /// All positions of the carts, from the lane to one past out.
    pub fn all_positions(&self) -> Vec<Vec<usize>> {
        (0..self.carts()).fold(vec![vec![]], |positions, cart| {
            let extended = |at: &Vec<usize>, k| at.iter().copied().chain([k]).collect();
            positions
                .iter()
                .flat_map(|at| (0..=self.out(cart) + 1).map(move |k| extended(at, k)))
                .collect()
        })
    }

    /// All positions that some run reaches, found by making every permitted move in each of them.
    pub fn reached(&self) -> HashSet<Vec<usize>> {
        let start = vec![0; self.carts()];
        let mut reached = HashSet::from([start.clone()]);
        let mut next = vec![start];
        while let Some(at) = next.pop() {
            for cart in (0..self.carts()).filter(|cart| self.answer(&at, *cart).is_ok()) {
                let mut after = at.clone();
                after[cart] += 1;
                if reached.insert(after.clone()) {
                    next.push(after);
                }
            }
        }
        reached
    }

    /// Where the carts are when permitted moves are made until none is left.
    pub fn end(&self) -> Vec<usize> {
        let mut at = vec![0; self.carts()];
        while let Some(cart) = (0..self.carts()).find(|cart| self.answer(&at, *cart).is_ok()) {
            at[cart] += 1;
        }
        at
    }

    /// What a request is answered for any record: 22 where no run brings all carts out, 23 where no run reaches the record.
    pub fn answer_for(
        &self,
        reached: &HashSet<Vec<usize>>,
        record: &Record,
        cart: usize,
    ) -> Result<Moved, NotMoved> {
        let outs: Vec<usize> = (0..self.carts()).map(|cart| self.out(cart)).collect();
        let at: Vec<usize> = record.position[..self.carts()]
            .iter()
            .map(|position| usize::from(*position))
            .collect();
        if !reached.contains(&outs) {
            return refused(22);
        }
        if !reached.contains(&at) || self.record(&at) != *record {
            return refused(23);
        }
        self.answer(&at, cart)
    }
}
