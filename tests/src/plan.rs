//! Umbrella plans, and the plan drawn, in linear time; `search` finds it word by
//! word. Follows "Umbrellas and levels" of document 01.

use crate::answer::Refusal;
use crate::part::{Corner, Pair, Part};
use crate::sheet;

/// What a stem does after a triangle (p,x,q): it ends, or goes on across (p,x)
/// or across (x,q). The order is the one in which ties are broken.
#[derive(Clone, Copy, Debug, PartialEq, Eq, PartialOrd, Ord)]
pub enum Letter {
    E,
    L,
    R,
}

/// A stem: its first gate, and a letter for each triangle.
#[derive(Clone, Debug, PartialEq, Eq, PartialOrd, Ord)]
pub struct Stem {
    pub gate: Pair,
    pub word: Vec<Letter>,
}

/// What the operation Plan gives.
#[derive(Clone, Copy, Debug, Default, PartialEq, Eq)]
pub struct Counts {
    pub levels: u16,
    pub umbrellas: u16,
    pub stems: u16,
}

/// A plan of a piece: its umbrella's stem, and a plan of each hung piece.
#[derive(Clone, Debug, PartialEq, Eq)]
pub struct Plan {
    pub piece: Pair,
    pub stem: Option<Stem>,
    /// Ascending by piece.
    pub hung: Vec<Plan>,
    pub counts: Counts,
}

impl Plan {
    /// The plan with the given stem and plans of the hung pieces, in any order.
    pub fn new(piece: Pair, stem: Option<Stem>, mut hung: Vec<Plan>) -> Plan {
        hung.sort_unstable_by_key(|plan| plan.piece);
        let most = hung.iter().map(|plan| plan.counts.levels).max();
        let umbrellas: u16 = hung.iter().map(|plan| plan.counts.umbrellas).sum();
        let stems: u16 = hung.iter().map(|plan| plan.counts.stems).sum();
        let counts = Counts {
            levels: 1 + most.unwrap_or(0),
            umbrellas: 1 + umbrellas,
            stems: u16::from(stem.is_some()) + stems,
        };
        Plan {
            piece,
            stem,
            hung,
            counts,
        }
    }

    /// The plan of the hung piece, if there is one beyond the edge.
    pub fn hung(&self, edge: Pair) -> Option<&Plan> {
        let place = self.hung.binary_search_by_key(&edge, |plan| plan.piece);
        place.ok().map(|place| &self.hung[place])
    }
}

/// More levels than any part has: the value of what cannot be done.
const NEVER: u8 = u8::MAX;

/// The place of a piece among all those of a part.
type Index = u16;

/// A piece, with the least numbers of levels that the choice of plans needs.
///
/// For a fan, that is for all triangles of the piece at one of its two corners,
/// `without` counts the levels hung on the edges opposite the corner, `with` the
/// same if a stem enters across one of them.
#[derive(Clone, Copy)]
struct Piece {
    u: Corner,
    v: Corner,
    /// Of a piece that is not empty, the pieces (u,c) and (c,v).
    left: Index,
    right: Index,
    /// Levels of the piece.
    levels: u8,
    /// Levels hung beside a stem whose first gate is the piece's root edge.
    stem: u8,
    low: Fan,
    high: Fan,
}

#[derive(Clone, Copy)]
struct Fan {
    without: u8,
    with: u8,
}

impl Fan {
    const EMPTY: Fan = Fan {
        without: 0,
        with: NEVER,
    };

    /// The fan with one more triangle, whose opposite edge has `piece` beyond it.
    fn grown(self, piece: &Piece) -> Fan {
        let hung = self.with.max(piece.levels);
        let entered = self.without.max(piece.stem);
        Fan {
            without: self.without.max(piece.levels),
            with: hung.min(entered),
        }
    }
}

impl Piece {
    fn beyond_side(u: Corner) -> Piece {
        Piece {
            u,
            v: u + 1,
            left: Index::MAX,
            right: Index::MAX,
            levels: 0,
            stem: NEVER,
            low: Fan::EMPTY,
            high: Fan::EMPTY,
        }
    }

    fn is_empty(&self) -> bool {
        self.u + 1 == self.v
    }
}

/// All pieces of a part, each after the two that it contains.
pub struct Pieces {
    all: Vec<Piece>,
}

impl Pieces {
    pub fn of(part: &Part) -> Pieces {
        let mut all: Vec<Piece> = (0..part.n - 1).map(Piece::beyond_side).collect();
        all.reserve(part.diagonals.len() + 1);
        // The widest piece met so far with each corner as its lower one.
        let mut widest: Vec<Index> = (0..part.n - 1).collect();
        let mut add = |u: Corner, v: Corner| {
            let left = widest[usize::from(u)];
            let l = &all[usize::from(left)];
            let right = widest[usize::from(l.v)];
            let r = &all[usize::from(right)];
            assert_eq!(r.v, v, "the part is valid");
            widest[usize::from(u)] = all.len() as Index;
            all.push(joined(u, v, (left, l), (right, r)));
        };
        for from_one_corner in part.diagonals.chunk_by(|one, next| one.0 == next.0).rev() {
            for &(u, v) in from_one_corner {
                add(u, v);
            }
        }
        add(0, part.n - 1);
        Pieces { all }
    }

    fn at(&self, place: Index) -> &Piece {
        &self.all[usize::from(place)]
    }

    fn root(&self) -> Index {
        (self.all.len() - 1) as Index
    }

    /// The umbrella drawn in the piece: its stem, with the hung pieces put into
    /// `hung`. Least levels, then no stem, the lower gate, the lower word.
    fn umbrella(&self, piece: Index, hung: &mut Vec<Index>) -> Option<Stem> {
        let most = self.at(piece).levels - 1;
        let start = hung.len();
        let mut low = self.at(piece).left;
        while !self.at(low).is_empty() {
            hung.push(self.at(low).right);
            low = self.at(low).left;
        }
        hung[start..].reverse();
        let mut high = self.at(piece).right;
        while !self.at(high).is_empty() {
            hung.push(self.at(high).left);
            high = self.at(high).right;
        }
        let rim = &hung[start..];
        let too_high = |edge: Index| self.at(edge).levels > most;
        let above = rim.iter().filter(|&&edge| too_high(edge)).count();
        let mut stem = None;
        if above > 0 {
            let fits =
                |&edge: &Index| self.at(edge).stem <= most && above == usize::from(too_high(edge));
            let place = rim.iter().position(fits);
            let gate = hung.swap_remove(start + place.expect("some gate reaches the levels"));
            stem = Some(self.stem(gate, most, hung));
        }
        let mut place = start;
        while place < hung.len() {
            if self.at(hung[place]).is_empty() {
                hung.swap_remove(place);
            } else {
                place += 1;
            }
        }
        stem
    }

    /// The first stem through the gate beside which no piece of more than `most`
    /// levels hangs.
    fn stem(&self, first_gate: Index, most: u8, hung: &mut Vec<Index>) -> Stem {
        let mut word = Vec::new();
        let mut gate = first_gate;
        loop {
            let &Piece { left, right, .. } = self.at(gate);
            let (l, r) = (self.at(left), self.at(right));
            if (l.is_empty() || r.is_empty()) && l.levels.max(r.levels) <= most {
                word.push(Letter::E);
                hung.extend([left, right]);
                let &Piece { u, v, .. } = self.at(first_gate);
                return Stem { gate: (u, v), word };
            } else if l.stem <= most && r.levels <= most {
                word.push(Letter::L);
                hung.push(right);
                gate = left;
            } else {
                assert!(l.levels <= most && r.stem <= most);
                word.push(Letter::R);
                hung.push(left);
                gate = right;
            }
        }
    }

    /// The plan drawn, of the whole part.
    pub fn plan(&self) -> Plan {
        self.plan_of(self.root())
    }

    fn plan_of(&self, piece: Index) -> Plan {
        let mut hung = Vec::new();
        let stem = self.umbrella(piece, &mut hung);
        let plans = hung.into_iter().map(|piece| self.plan_of(piece)).collect();
        let &Piece { u, v, .. } = self.at(piece);
        Plan::new((u, v), stem, plans)
    }

    /// Levels, umbrellas and stems of the plan drawn.
    pub fn counts(&self) -> Counts {
        let mut counts = Counts {
            levels: self.at(self.root()).levels.into(),
            ..Counts::default()
        };
        let mut pieces = vec![self.root()];
        while let Some(piece) = pieces.pop() {
            counts.umbrellas += 1;
            counts.stems += u16::from(self.umbrella(piece, &mut pieces).is_some());
        }
        counts
    }

    /// The least levels of every piece, and of what hangs beside a stem that
    /// enters it.
    pub fn least(&self) -> impl Iterator<Item = (Pair, u8, u8)> + '_ {
        self.all.iter().map(|p| ((p.u, p.v), p.levels, p.stem))
    }
}

/// The piece (u,v) from the two pieces beside its triangle at the root edge.
fn joined(u: Corner, v: Corner, (left, l): (Index, &Piece), (right, r): (Index, &Piece)) -> Piece {
    let ends = if l.is_empty() || r.is_empty() {
        l.levels.max(r.levels)
    } else {
        NEVER
    };
    let goes_left = l.stem.max(r.levels);
    let goes_right = l.levels.max(r.stem);
    let (low, high) = (l.low, r.high);
    let hung = (low.without.max(high.without))
        .min(low.with.max(high.without))
        .min(low.without.max(high.with));
    Piece {
        u,
        v,
        left,
        right,
        levels: 1 + hung,
        stem: ends.min(goes_left).min(goes_right),
        low: l.low.grown(r),
        high: r.high.grown(l),
    }
}

/// Plan: levels, umbrellas and stems of the plan drawn.
pub fn plan_sheet(sheet: &[u8]) -> Result<Counts, Refusal> {
    Ok(Pieces::of(&sheet::read(sheet)?).counts())
}
