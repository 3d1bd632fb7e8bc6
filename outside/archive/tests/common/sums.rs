//! Pairs of lists that compute one sum in two orders: the ones among some bits, a product plus a
//! word, and words one behind the other. Nothing in between need be the same on both sides, which
//! is what makes such a pair hard to prove. All of it is drawn from full and half adders.

use std::fmt;

use super::drawing::{Drawing, FALSE};
use super::lists::{List, LARGEST};
use super::random::Random;

/// How a full adder's carry is written: (a and b) or ((a xor b) and c), or with XOR for the OR,
/// which is the same since both are never true at once.
#[derive(Clone, Copy, Debug, PartialEq, Eq)]
pub enum Carry {
    Or,
    Xor,
    /// One of the two for each adder, by the numbers from this seed.
    Either(u64),
}

/// In which order the addends are added up.
#[derive(Clone, Copy, Debug, PartialEq, Eq)]
pub enum Order {
    /// One behind the other, from the first to the last.
    Forward,
    /// From the last to the first.
    Backward,
    /// The last, and then from the first on.
    LastFirst,
    /// Both halves, and then their sum: a balanced tree of ripple adders.
    Tree,
    /// Column by column by full adders, until a column has two bits, and then one ripple adder.
    Columns,
}

pub const ORDERS: [Order; 5] = [
    Order::Forward,
    Order::Backward,
    Order::LastFirst,
    Order::Tree,
    Order::Columns,
];

/// What is added up.
#[derive(Clone, Copy, Debug, PartialEq, Eq)]
pub enum Sum {
    /// The ones among so many bits.
    Ones(usize),
    /// A product of numbers of so many bits, and a word of so many.
    Product { factors: [usize; 2], word: usize },
    /// So many words of so many bits; with all carries, or modulo 2^width.
    Words {
        count: usize,
        width: usize,
        carries: bool,
    },
}

impl fmt::Display for Sum {
    fn fmt(&self, out: &mut fmt::Formatter<'_>) -> fmt::Result {
        match *self {
            Self::Ones(bits) => write!(out, "ones among {bits} bits"),
            Self::Product { factors, word } => {
                let [p, q] = factors;
                write!(out, "product of {p} by {q} bits, plus {word} bits")
            }
            Self::Words {
                count,
                width,
                carries,
            } => {
                let kept = if carries { "with carries" } else { "cut" };
                write!(out, "{count} words of {width} bits, {kept}")
            }
        }
    }
}

impl fmt::Display for Order {
    fn fmt(&self, out: &mut fmt::Formatter<'_>) -> fmt::Result {
        out.write_str(match self {
            Self::Forward => "forward",
            Self::Backward => "backward",
            Self::LastFirst => "last first",
            Self::Tree => "tree",
            Self::Columns => "columns",
        })
    }
}

/// A number while it is drawn: its bits, the lowest first, and the most that it can be.
#[derive(Clone, Debug)]
struct Word {
    bits: Vec<usize>,
    most: u128,
}

impl Word {
    /// The bits times a power of two.
    fn shifted(bits: impl Iterator<Item = usize>, places: usize) -> Self {
        let zeros = std::iter::repeat_n(FALSE, places);
        let bits: Vec<usize> = zeros.chain(bits).collect();
        let most = (1 << bits.len()) - (1 << places);
        Self { bits, most }
    }

    fn bit(&self, place: usize) -> usize {
        self.bits.get(place).copied().unwrap_or(FALSE)
    }
}

impl Sum {
    pub fn inputs(self) -> usize {
        match self {
            Self::Ones(bits) => bits,
            Self::Product { factors, word } => factors[0] + factors[1] + word,
            Self::Words { count, width, .. } => count * width,
        }
    }

    /// What the sum is on a pattern, worked out as a number.
    pub fn value(self, pattern: u64) -> u64 {
        let field = |from: usize, width: usize| (u128::from(pattern) >> from) & ((1 << width) - 1);
        let sum = match self {
            Self::Ones(bits) => field(0, bits).count_ones().into(),
            Self::Product { factors, word } => {
                let [p, q] = factors;
                field(0, p) * field(p, q) + field(p + q, word)
            }
            Self::Words {
                count,
                width,
                carries,
            } => {
                let words = (0..count).map(|k| field(k * width, width));
                let sum: u128 = words.sum();
                sum & if carries { u128::MAX } else { (1 << width) - 1 }
            }
        };
        u64::try_from(sum).expect("the sum has at most 64 bits")
    }

    /// The list that computes it in this order.
    pub fn list(self, order: Order, carry: Carry) -> List {
        assert!(
            self.inputs() <= LARGEST.inputs,
            "{self} has too many inputs"
        );
        let mut adding = Adding::new(self, carry);
        let addends = self.addends(&mut adding.drawing);
        let sum = adding.sum(addends, order);
        adding.drawing.list(&sum.bits)
    }

    /// The bits of the sum, if they are not all kept.
    fn width(self) -> Option<usize> {
        match self {
            Self::Words {
                width,
                carries: false,
                ..
            } => Some(width),
            _ => None,
        }
    }

    fn addends(self, drawing: &mut Drawing) -> Vec<Word> {
        let inputs = |from: usize, width: usize| (1 + from..=from + width).map(Drawing::input);
        match self {
            Self::Ones(bits) => (0..bits).map(|k| Word::shifted(inputs(k, 1), 0)).collect(),
            Self::Words { count, width, .. } => (0..count)
                .map(|k| Word::shifted(inputs(k * width, width), 0))
                .collect(),
            Self::Product { factors, word } => {
                let [p, q] = factors;
                let row = |place: usize| {
                    let bit = Drawing::input(1 + p + place);
                    let row: Vec<usize> = inputs(0, p).map(|a| drawing.and(a, bit)).collect();
                    Word::shifted(row.into_iter(), place)
                };
                let rows: Vec<Word> = (0..q).map(row).collect();
                let word = Word::shifted(inputs(p + q, word), 0);
                rows.into_iter().chain([word]).collect()
            }
        }
    }
}

/// A sum while it is drawn.
struct Adding {
    drawing: Drawing,
    carry: Carry,
    random: Random,
    /// Bits from here on are not drawn.
    width: Option<usize>,
}

impl Adding {
    fn new(sum: Sum, carry: Carry) -> Self {
        let seed = match carry {
            Carry::Either(seed) => seed,
            _ => 0,
        };
        Self {
            drawing: Drawing::over(sum.inputs()),
            carry,
            random: Random::of_case(seed, 0),
            width: sum.width(),
        }
    }

    fn sum(&mut self, mut addends: Vec<Word>, order: Order) -> Word {
        match order {
            Order::Forward => {}
            Order::Backward => addends.reverse(),
            Order::LastFirst => addends.rotate_right(1),
            Order::Tree => return self.tree(&addends),
            Order::Columns => return self.columns(&addends),
        }
        let sum = addends
            .into_iter()
            .reduce(|sum, word| self.add(&sum, &word));
        sum.expect("there is an addend")
    }

    fn tree(&mut self, addends: &[Word]) -> Word {
        if let [word] = addends {
            return word.clone();
        }
        let (low, high) = addends.split_at(addends.len().div_ceil(2));
        let [low, high] = [low, high].map(|half| self.tree(half));
        self.add(&low, &high)
    }

    /// Full adders over three bits of a column at a time, in stages, until no column has over two.
    fn columns(&mut self, addends: &[Word]) -> Word {
        let most = addends.iter().map(|word| word.most).sum();
        let mut columns = vec![Vec::new(); self.bits_of(most)];
        for (place, column) in columns.iter_mut().enumerate() {
            let bits = addends.iter().map(|word| word.bit(place));
            column.extend(bits.filter(|&bit| bit != FALSE));
        }
        while columns.iter().any(|column| column.len() > 2) {
            columns = self.compressed(&columns);
        }
        let row = |which: usize| {
            let bits = columns.iter().map(|column| column.get(which));
            let bits = bits.map(|bit| bit.copied().unwrap_or(FALSE)).collect();
            Word { bits, most: 0 }
        };
        let [first, second] = [row(0), row(1)];
        self.ripple(&first, &second, most)
    }

    fn compressed(&mut self, columns: &[Vec<usize>]) -> Vec<Vec<usize>> {
        let mut next = vec![Vec::new(); columns.len() + 1];
        for (place, column) in columns.iter().enumerate() {
            for bits in column.chunks(3) {
                if let &[a, b, c] = bits {
                    let [sum, carry] = self.full_adder(a, b, c);
                    next[place].push(sum);
                    next[place + 1].push(carry);
                } else {
                    next[place].extend(bits);
                }
            }
        }
        // What is carried out of the last column is cut, or never true.
        next.truncate(columns.len());
        next
    }

    /// How many bits a number of at most this much has, as far as they are drawn.
    fn bits_of(&self, most: u128) -> usize {
        let bits = (u128::BITS - most.leading_zeros()) as usize;
        self.width.map_or(bits, |width| bits.min(width))
    }

    fn add(&mut self, a: &Word, b: &Word) -> Word {
        self.ripple(a, b, a.most + b.most)
    }

    /// A ripple adder; the sum is at most this much.
    fn ripple(&mut self, a: &Word, b: &Word, most: u128) -> Word {
        let mut carry = FALSE;
        let mut bits = Vec::new();
        for place in 0..self.bits_of(most) {
            let [sum, next] = self.full_adder(a.bit(place), b.bit(place), carry);
            bits.push(sum);
            carry = next;
        }
        Word { bits, most }
    }

    /// Sum and carry of three bits. Where one is the constant, a half adder is left of it, and
    /// where two are, a wire.
    fn full_adder(&mut self, a: usize, b: usize, c: usize) -> [usize; 2] {
        let by_xor = match self.carry {
            Carry::Or => false,
            Carry::Xor => true,
            Carry::Either(_) => self.random.one_in(2),
        };
        let drawing = &mut self.drawing;
        let half = drawing.xor(a, b);
        let sum = drawing.xor(half, c);
        let [both, through] = [drawing.and(a, b), drawing.and(half, c)];
        let carry = if by_xor {
            drawing.xor(both, through)
        } else {
            drawing.or(both, through)
        };
        [sum, carry]
    }
}

/// The inputs of sums that a search alone proves in a second.
const MOST_SEARCHED: usize = 8;

/// Two lists for one sum, and what they are.
pub struct Pair {
    pub about: String,
    pub lists: [List; 2],
    sum: Sum,
    right: Order,
}

impl Pair {
    /// Whether it may be left open: columns have no ripple adder below the last, so that only a search
    /// is left, and 32 bits counted in opposite order take more clauses than have numbers.
    pub fn may_be_open(&self) -> bool {
        let is_searched = self.right == Order::Columns && self.sum.inputs() > MOST_SEARCHED;
        is_searched || self.right == Order::Backward && self.sum == Sum::Ones(32)
    }

    pub fn text(&self) -> Vec<u8> {
        self.lists.each_ref().map(List::text).concat()
    }
}

/// A sum in two orders, with the carry's two writings on the two sides where they are to be mixed.
pub fn pair(sum: Sum, orders: [Order; 2], carries: [Carry; 2]) -> Pair {
    let [left, right] = orders;
    let mixed = if carries[0] == carries[1] {
        ""
    } else {
        ", carries mixed"
    };
    Pair {
        about: format!("{sum}: {left}, {right}{mixed}"),
        lists: [0, 1].map(|side| sum.list(orders[side], carries[side])),
        sum,
        right,
    }
}

const fn product(p: usize, q: usize, word: usize) -> Sum {
    let factors = [p, q];
    Sum::Product { factors, word }
}

const fn words(count: usize, width: usize, carries: bool) -> Sum {
    Sum::Words {
        count,
        width,
        carries,
    }
}

/// Every sum on which the finder is tried, from small to large.
pub const SUMS: [Sum; 27] = [
    Sum::Ones(4),
    Sum::Ones(5),
    Sum::Ones(6),
    Sum::Ones(7),
    Sum::Ones(8),
    Sum::Ones(10),
    Sum::Ones(12),
    Sum::Ones(14),
    Sum::Ones(16),
    Sum::Ones(20),
    Sum::Ones(24),
    Sum::Ones(32),
    product(2, 2, 4),
    product(3, 3, 6),
    product(4, 4, 8),
    words(3, 2, false),
    words(3, 2, true),
    words(3, 4, false),
    words(3, 4, true),
    words(4, 2, true),
    words(4, 4, false),
    words(4, 4, true),
    words(3, 8, true),
    words(4, 8, false),
    words(4, 8, true),
    words(4, 16, false),
    words(4, 16, true),
];

/// The pairs of a sum: from the first addend on, against other orders, once with both writings of
/// the carry on the right.
pub fn pairs(sum: Sum) -> Vec<Pair> {
    let others: &[Order] = match sum {
        Sum::Ones(_) => &[Order::Backward, Order::Tree, Order::Columns],
        Sum::Product { .. } => &[Order::LastFirst, Order::Columns],
        Sum::Words { .. } => &[Order::Backward, Order::Columns],
    };
    let mut pairs: Vec<Pair> = others
        .iter()
        .map(|&order| pair(sum, [Order::Forward, order], [Carry::Or; 2]))
        .collect();
    let mixed = [Carry::Or, Carry::Either(sum.inputs() as u64)];
    pairs.push(pair(sum, [Order::Forward, others[0]], mixed));
    pairs
}
