//! The tables of a contract and of an output type by itself, exactly as they are handed in: nothing here is known to be
//! admitted.

/// Sizes and tables, in the order in which every operation takes them.
#[derive(Clone, Debug, Default, PartialEq, Eq)]
pub struct Contract {
    pub symbols: usize,
    pub input_states: usize,
    pub output_states: usize,
    /// How many parameters each procedure has.
    pub counts: Vec<u16>,
    /// (state, symbol, left state, right state)
    pub input_rows: Vec<u16>,
    pub input_marks: Vec<u16>,
    /// The state of symbol 0, then a state for each other symbol, left state and right state.
    pub output_table: Vec<u16>,
    pub output_marks: Vec<u16>,
    /// (tag, name, child, first, second)
    pub nodes: Vec<u16>,
    /// (procedure, symbol, node); a stay rule has the number after the last symbol
    pub rules: Vec<u16>,
}

/// Where a call goes, by its number in the table: to the node itself, or to one of its children.
#[derive(Clone, Copy, Debug, PartialEq, Eq)]
pub enum Child {
    Here = 0,
    Left = 1,
    Right = 2,
}

/// What an expression node does.
#[derive(Clone, Copy, Debug, PartialEq, Eq)]
pub enum Node {
    /// Parameter 0 or 1 of the procedure (written 1 or 2 in the table).
    Parameter(usize),
    /// The empty forest.
    Empty,
    /// An output symbol over two smaller nodes.
    Symbol(usize, usize, usize),
    /// A procedure on a child or on the node itself, with the nodes of its arguments.
    Call { procedure: usize, child: Child, first: usize, second: usize },
}

impl Contract {
    pub fn procedures(&self) -> usize {
        self.counts.len()
    }

    pub fn count(&self, procedure: usize) -> usize {
        usize::from(self.counts[procedure])
    }

    pub fn input_row(&self, row: usize) -> [usize; 4] {
        tuple(&self.input_rows, row)
    }

    pub fn node_numbers(&self, node: usize) -> [usize; 5] {
        tuple(&self.nodes, node)
    }

    pub fn rule(&self, rule: usize) -> [usize; 3] {
        tuple(&self.rules, rule)
    }

    pub fn input_row_count(&self) -> usize {
        self.input_rows.len() / 4
    }

    pub fn node_count(&self) -> usize {
        self.nodes.len() / 5
    }

    pub fn rule_count(&self) -> usize {
        self.rules.len() / 3
    }

    /// The symbol number of a stay rule, which is for a node of any symbol.
    pub fn stay(&self) -> usize {
        self.symbols
    }

    pub fn has_stay_rules(&self) -> bool {
        (0..self.rule_count()).any(|rule| self.rule(rule)[1] == self.stay())
    }

    /// A node of an admitted contract.
    pub fn node(&self, node: usize) -> Node {
        let [tag, name, child, first, second] = self.node_numbers(node);
        match (tag, name) {
            (0, _) => Node::Parameter(name - 1),
            (1, 0) => Node::Empty,
            (1, _) => Node::Symbol(name, first, second),
            _ => {
                let child = [Child::Here, Child::Left, Child::Right][child];
                Node::Call { procedure: name, child, first, second }
            }
        }
    }

    /// The state that the output table gives a symbol other than 0 over two states.
    pub fn output_state(&self, symbol: usize, left: usize, right: usize) -> usize {
        self.output_type().state(symbol, left, right)
    }

    /// The output type, with the symbols that it is over.
    pub fn output_type(&self) -> OutputType<'_> {
        let (symbols, states) = (self.symbols, self.output_states);
        OutputType { symbols, states, table: &self.output_table, marks: &self.output_marks }
    }
}

/// An output type by itself: a contract's, or one of [`OutputTables`].
#[derive(Clone, Copy, Debug, PartialEq, Eq)]
pub struct OutputType<'a> {
    pub symbols: usize,
    pub states: usize,
    /// The state of symbol 0, then a state for each other symbol, left state and right state.
    pub table: &'a [u16],
    pub marks: &'a [u16],
}

/// What a type without a fault says.
impl OutputType<'_> {
    /// The state of the empty forest.
    pub fn state_of_empty(&self) -> usize {
        usize::from(self.table[0])
    }

    /// The state of a symbol other than 0 over two states.
    pub fn state(&self, symbol: usize, left: usize, right: usize) -> usize {
        usize::from(self.table[1 + ((symbol - 1) * self.states + left) * self.states + right])
    }

    pub fn accepts(&self, state: usize) -> bool {
        self.marks[state] == 1
    }
}

/// The tables of an output type that is not a contract's.
#[derive(Clone, Debug, Default, PartialEq, Eq)]
pub struct OutputTables {
    pub symbols: usize,
    pub states: usize,
    pub table: Vec<u16>,
    pub marks: Vec<u16>,
}

impl OutputTables {
    pub fn output_type(&self) -> OutputType<'_> {
        OutputType { symbols: self.symbols, states: self.states, table: &self.table, marks: &self.marks }
    }
}

/// Tuple `index` of a table of tuples.
pub fn tuple<const WIDTH: usize>(table: &[u16], index: usize) -> [usize; WIDTH] {
    std::array::from_fn(|field| usize::from(table[WIDTH * index + field]))
}
