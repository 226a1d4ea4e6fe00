//! Random lists of calls.

use judge::calls::{Call, Side};
use judge::{File, Limits, Type};

/// A list of calls, and the visits it starts with.
#[derive(Debug)]
pub struct List {
    pub visits: u64,
    pub calls: Vec<Call>,
}

impl List {
    pub fn random(file: &File, random: &mut Random) -> List {
        let visits = match random.below(8) {
            0 => random.below(60),
            1 => random.below(2_000),
            _ => Limits::default().visits,
        };
        let mut made = Made {
            long: random.below(1_024) == 0,
            ..Made::default()
        };
        let mut calls = vec![];
        if made.long && random.below(4) == 0 {
            made.fill(file, random, &mut calls);
        }
        // A long list comes near the room for unknowns and records, or past it.
        let length = match (made.long, made.full) {
            (true, false) => 512 + random.below(1_600),
            (true, true) => 200 + random.below(600),
            _ => 4 + random.below(60),
        };
        calls.extend((0..length).map(|_| made.call(file, random)));
        List { visits, calls }
    }
}

/// What the calls so far have made, so that later ones can name it.
#[derive(Default)]
struct Made {
    /// A long list names no schema type: they may be large, and each step writes all bindings out.
    /// It goes back to the latest snapshot alone, so that many unknowns stay bound.
    long: bool,
    /// All the room for unknowns and records is used from the start.
    full: bool,
    unknowns: u16,
    records: u16,
    snapshots: u16,
    /// The snapshots that a rollback may still go to, oldest first.
    open: Vec<u16>,
    /// Records with the names of a schema type, and that type.
    alike: Vec<(u16, u16)>,
}

impl Made {
    /// As many unknowns, records and fields as there is room for.
    fn fill(&mut self, file: &File, random: &mut Random, calls: &mut Vec<Call>) {
        self.full = true;
        self.unknowns = 512;
        calls.extend((0..512).map(|_| Call::Fresh));
        if file.names.is_empty() {
            return;
        }
        for _ in 0..512 {
            let name = random.below(file.names.len().min(2) as u64) as u16;
            calls.push(Call::Record(vec![(name, self.side(file, random))]));
            self.records += 1;
        }
    }

    fn call(&mut self, file: &File, random: &mut Random) -> Call {
        match random.below(100) {
            0..25 if !self.full => {
                self.unknowns += 1;
                Call::Fresh
            }
            25..45 if !self.full && !file.names.is_empty() => {
                let fields = self.alike(file, random).unwrap_or_else(|| {
                    (0..random.below(4))
                        .map(|_| {
                            // Few names, so that records meet with the same ones and repeat some.
                            let name = random.below(file.names.len().min(4) as u64) as u16;
                            (name, self.side(file, random))
                        })
                        .collect()
                });
                self.records += 1;
                Call::Record(fields)
            }
            85..92 => {
                self.open.push(self.snapshots);
                self.snapshots += 1;
                Call::Snapshot
            }
            92..97 if !self.open.is_empty() => {
                let to = if self.long {
                    self.open.len() - 1
                } else {
                    random.below(self.open.len() as u64) as usize
                };
                self.open.truncate(to + 1);
                Call::Rollback(self.open[to])
            }
            97..100 => Call::Spend(random.below(20)),
            _ => self.unify(file, random),
        }
    }

    /// Sides that have something in common meet more often than by chance.
    fn unify(&self, file: &File, random: &mut Random) -> Call {
        let union = |random: &mut Random| {
            let of = |(_, ty): &(usize, &Type)| matches!(ty, Type::Union(_));
            let unions: Vec<_> = file.types.iter().enumerate().filter(of).collect();
            let (number, _) = unions.get(random.below(unions.len().max(1) as u64) as usize)?;
            Some(Side::Schema(*number as u16))
        };
        let pair = match random.below(8) {
            0 if !self.alike.is_empty() => {
                let (record, ty) = self.alike[random.below(self.alike.len() as u64) as usize];
                Some((Side::Record(record), Side::Schema(ty)))
            }
            1 if !self.long => union(random).zip(union(random)),
            _ => None,
        };
        let (one, other) =
            pair.unwrap_or_else(|| (self.side(file, random), self.side(file, random)));
        if random.below(2) == 0 {
            Call::Unify(one, other)
        } else {
            Call::Unify(other, one)
        }
    }

    /// At times the fields of a small record type of the schema in some order, with its types or others.
    fn alike(&mut self, file: &File, random: &mut Random) -> Option<Vec<(u16, Side)>> {
        if self.long || file.types.is_empty() || random.below(3) > 0 {
            return None;
        }
        let number = random.below(file.types.len() as u64) as usize;
        let Type::Record(fields) = &file.types[number] else {
            return None;
        };
        if fields.len() > 6 {
            return None;
        }
        let mut fields: Vec<(u16, Side)> = fields
            .iter()
            .map(|(name, ty)| match random.below(6) {
                0 => (*name, self.side(file, random)),
                1 | 2 if self.unknowns > 0 => (
                    *name,
                    Side::Unknown(random.below(u64::from(self.unknowns)) as u16),
                ),
                _ => (*name, Side::Schema(*ty)),
            })
            .collect();
        for last in (1..fields.len()).rev() {
            fields.swap(last, random.below(last as u64 + 1) as usize);
        }
        self.alike.push((self.records, number as u16));
        Some(fields)
    }

    fn side(&self, file: &File, random: &mut Random) -> Side {
        // In a long list more unknowns, so that their chains grow.
        if self.long && self.unknowns > 0 && random.below(2) == 0 {
            return Side::Unknown(random.below(u64::from(self.unknowns)) as u16);
        }
        loop {
            return match random.below(20) {
                0 => Side::Int,
                1 => Side::String,
                2 => Side::Bytes,
                // 65,536 has the low half of 0
                3 => Side::Fact([0, 1, 2, 65_536][random.below(4) as usize]),
                4 => Side::Error,
                5..8 if !self.long && !file.types.is_empty() => {
                    Side::Schema(random.below(file.types.len() as u64) as u16)
                }
                8..14 if self.unknowns > 0 => {
                    Side::Unknown(random.below(u64::from(self.unknowns)) as u16)
                }
                14..20 if self.records > 0 => {
                    Side::Record(random.below(u64::from(self.records)) as u16)
                }
                _ => continue,
            };
        }
    }
}

/// A small generator of numbers (splitmix64), so that a seed gives the same list everywhere.
pub struct Random(u64);

impl Random {
    pub fn new(seed: u64) -> Self {
        Random(seed)
    }

    pub fn next(&mut self) -> u64 {
        self.0 = self.0.wrapping_add(0x9e37_79b9_7f4a_7c15);
        let mut mixed = self.0;
        mixed = (mixed ^ (mixed >> 30)).wrapping_mul(0xbf58_476d_1ce4_e5b9);
        mixed = (mixed ^ (mixed >> 27)).wrapping_mul(0x94d0_49bb_1331_11eb);
        mixed ^ (mixed >> 31)
    }

    /// A number below `bound`, which is not 0.
    pub fn below(&mut self, bound: u64) -> u64 {
        self.next() % bound
    }
}
