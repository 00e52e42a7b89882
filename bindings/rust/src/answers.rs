//! Answers, read from their bytes. A number has eight bytes, the highest first. Bytes and lists come after their count.

/// A row: the number of the commit that wrote it last, and its columns, in the order in which they were asked for.
#[derive(Clone, Debug, PartialEq, Eq)]
pub struct Row {
    /// The number of the commit that wrote it last.
    pub version: u64,
    /// Its columns.
    pub columns: Vec<Vec<u8>>,
}

/// What a view shows.
#[derive(Clone, Debug, PartialEq, Eq)]
pub struct Page {
    /// The commit at which the view is.
    pub at: u64,
    /// How many rows the view has.
    pub count: u64,
    /// For each column, the sum of its amounts over those rows.
    pub sums: Vec<u128>,
    /// The rows that were asked for, with their keys.
    pub rows: Vec<(Vec<u8>, Row)>,
}

/// The totals of a view.
#[derive(Clone, Debug, PartialEq, Eq)]
pub struct Totals {
    /// The commit at which the view is.
    pub at: u64,
    /// How many rows the view has.
    pub count: u64,
    /// For each column, the sum of its amounts over those rows.
    pub sums: Vec<u128>,
}

/// What a commit did to a key.
#[derive(Clone, Debug, PartialEq, Eq)]
pub struct Delta {
    /// The number of the commit.
    pub number: u64,
    /// The key.
    pub key: Vec<u8>,
    /// The row before it, if there was one.
    pub before: Option<Row>,
    /// The row after it, if there is one.
    pub after: Option<Row>,
}

/// What is left of an answer. Past its end, numbers are read as 0 and bytes as none.
pub(crate) struct Reader<'a> {
    left: &'a [u8],
}

impl<'a> Reader<'a> {
    pub(crate) fn new(answer: &'a [u8]) -> Reader<'a> {
        Reader { left: answer }
    }

    fn take(&mut self, count: u64) -> &'a [u8] {
        let count = usize::try_from(count)
            .unwrap_or(usize::MAX)
            .min(self.left.len());
        let (taken, left) = self.left.split_at(count);
        self.left = left;
        taken
    }

    fn number(&mut self) -> u64 {
        self.take(8).try_into().map_or(0, u64::from_be_bytes)
    }

    fn bytes(&mut self) -> Vec<u8> {
        let count = self.number();
        self.take(count).to_vec()
    }

    fn list<T>(&mut self, item: impl Fn(&mut Reader<'a>) -> T) -> Vec<T> {
        let mut items = Vec::new();
        for _ in 0..self.number() {
            if self.left.is_empty() {
                break;
            }
            items.push(item(self));
        }
        items
    }

    pub(crate) fn row(&mut self) -> Row {
        Row {
            version: self.number(),
            columns: self.list(Reader::bytes),
        }
    }

    fn maybe_row(&mut self) -> Option<Row> {
        (self.number() != 0).then(|| self.row())
    }

    pub(crate) fn maybe_rows(&mut self) -> Vec<Option<Row>> {
        self.list(Reader::maybe_row)
    }

    fn pair(&mut self) -> (Vec<u8>, Row) {
        (self.bytes(), self.row())
    }

    pub(crate) fn pairs(&mut self) -> Vec<(Vec<u8>, Row)> {
        self.list(Reader::pair)
    }

    fn sum(&mut self) -> u128 {
        u128::from(self.number()) << 64 | u128::from(self.number())
    }

    pub(crate) fn page(&mut self) -> Page {
        Page {
            at: self.number(),
            count: self.number(),
            sums: self.list(Reader::sum),
            rows: self.pairs(),
        }
    }

    fn delta(&mut self) -> Delta {
        Delta {
            number: self.number(),
            key: self.bytes(),
            before: self.maybe_row(),
            after: self.maybe_row(),
        }
    }

    pub(crate) fn deltas(&mut self) -> Vec<Delta> {
        self.list(Reader::delta)
    }
}
