//! Arguments drawn by a repeatable die: edges more often than not, now and then bytes of a stored run, and now and
//! then the list before once more, whole or with one place changed, so that comparisons meet equal values too.
use std::cell::RefCell;

thread_local! {
    /// Bytes that stored runs hand to the code.
    pub static STORED: RefCell<Vec<Vec<u8>>> = const { RefCell::new(Vec::new()) };
}

/// The die. Its edges are the numbers that stand in the code of the crate whose calls are drawn.
#[derive(Clone)]
pub struct Dice {
    state: u64,
    before: u64,
    length: usize,
    edges: &'static [u64],
    exact: bool,
}

impl Dice {
    pub fn new(seed: u64, edges: &'static [u64]) -> Dice {
        Dice { state: seed, before: seed, length: 0, edges, exact: false }
    }

    /// A die that draws 0 and the edges themselves, and no other number.
    pub fn exact(seed: u64, edges: &'static [u64]) -> Dice {
        Dice { exact: true, ..Dice::new(seed, edges) }
    }

    /// SplitMix64.
    pub fn bits(&mut self) -> u64 {
        self.state = self.state.wrapping_add(0x9e37_79b9_7f4a_7c15);
        let x = (self.state ^ (self.state >> 30)).wrapping_mul(0xbf58_476d_1ce4_e5b9);
        let x = (x ^ (x >> 27)).wrapping_mul(0x94d0_49bb_1331_11eb);
        x ^ (x >> 31)
    }

    pub fn below(&mut self, n: u64) -> u64 {
        self.bits() % n
    }

    pub fn draw<T: Draw>(&mut self) -> T {
        T::draw(self)
    }

    /// A number of so many bits: small, at an edge of the type or of the code, short of the last list's end by a
    /// little or by an edge, or any.
    fn number(&mut self, bits: u32) -> u64 {
        let most = u64::MAX >> (64 - bits);
        let near = self.below(3).wrapping_sub(1);
        let edge = match self.edges {
            [] => 0,
            edges => edges[self.below(edges.len() as u64) as usize],
        };
        if self.exact {
            return [0, edge][self.below(2) as usize] & most;
        }
        let n = match self.below(8) {
            0 => self.below(5),
            1 => most - self.below(3),
            2 => (1u64 << self.below(u64::from(bits))).wrapping_add(near),
            3 | 4 if edge > 0 => edge.wrapping_add(near),
            5 => (self.length as u64).wrapping_sub(self.below(40)),
            6 if edge > 0 => (self.length as u64).wrapping_sub(edge).wrapping_add(near),
            _ => self.bits(),
        };
        n & most
    }

    /// A length of lent memory.
    fn length(&mut self) -> usize {
        let n = self.number(16);
        if n <= 5000 || self.below(40) == 0 {
            n as usize
        } else {
            self.below(100) as usize
        }
    }

    /// A die for one list: that of the list before, or a new one.
    fn for_a_list(&mut self) -> Dice {
        if self.below(3) != 0 {
            self.before = self.bits();
        }
        Dice::new(self.before, self.edges)
    }

    /// Changes one place of a list, now and then.
    fn bend<T: Draw>(&mut self, list: &mut [T]) {
        if !list.is_empty() && self.below(3) == 0 {
            let at = self.below(list.len() as u64) as usize;
            list[at] = self.draw();
        }
    }
}

pub trait Draw: Sized {
    fn draw(d: &mut Dice) -> Self;

    /// A list that a stored run has, where there is one of this type.
    fn stored(_: &mut Dice) -> Option<Vec<Self>> {
        None
    }
}

impl Draw for u8 {
    fn draw(d: &mut Dice) -> u8 {
        d.number(8) as u8
    }

    fn stored(d: &mut Dice) -> Option<Vec<u8>> {
        STORED.with_borrow(|lists| lists.get(d.below(lists.len().max(1) as u64) as usize).cloned())
    }
}

macro_rules! draw_numbers {
    ($($kind:ident)*) => { $(impl Draw for $kind { fn draw(d: &mut Dice) -> $kind { d.number($kind::BITS) as $kind } })* };
}
draw_numbers!(u16 u32 u64 usize);

impl Draw for bool {
    fn draw(d: &mut Dice) -> bool {
        d.below(2) == 1
    }
}

impl Draw for () {
    fn draw(_: &mut Dice) {}
}

impl<T: Draw, E: Draw> Draw for Result<T, E> {
    fn draw(d: &mut Dice) -> Result<T, E> {
        if d.draw() {
            Ok(d.draw())
        } else {
            Err(d.draw())
        }
    }
}

impl Draw for f64 {
    fn draw(d: &mut Dice) -> f64 {
        let edges = [
            0.0,
            -0.0,
            1.0,
            -1.0,
            0.5,
            2.0,
            f64::MAX,
            f64::MIN,
            f64::MIN_POSITIVE,
            f64::INFINITY,
            f64::NEG_INFINITY,
            f64::NAN,
        ];
        match d.below(3) {
            0 => f64::from_bits(d.bits()),
            _ => edges[d.below(edges.len() as u64) as usize],
        }
    }
}

impl<T: Draw, const N: usize> Draw for [T; N] {
    fn draw(d: &mut Dice) -> [T; N] {
        let mut own = d.for_a_list();
        let mut list = std::array::from_fn(|_| own.draw());
        d.bend(&mut list);
        list
    }
}

impl<T: Draw> Draw for Vec<T> {
    fn draw(d: &mut Dice) -> Vec<T> {
        let mut own = d.for_a_list();
        let stored = if own.below(6) == 0 { T::stored(&mut own) } else { None };
        let mut list = stored.unwrap_or_else(|| (0..own.length()).map(|_| own.draw()).collect());
        d.bend(&mut list);
        if d.below(8) == 0 {
            list.pop();
        }
        d.length = list.len();
        list
    }
}

impl Draw for crate::HostRuntime {
    fn draw(_: &mut Dice) -> crate::HostRuntime {
        crate::HostRuntime
    }
}

impl Draw for crate::io::Stdin {
    fn draw(d: &mut Dice) -> crate::io::Stdin {
        crate::io::hand(d.draw());
        crate::io::Stdin
    }
}
