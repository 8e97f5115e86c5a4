//! An artifact turned back into words by what the crate's records say alone, to be held to the words that it has them from.
use grain::records::{Access, Chain, Chunk, Position, Root, Step, Tail};
use grain::{Artifact, Constant, Constants, FnPtrKind, Table};

/// Number and values of an acceptance, and what stands outside of the tables, as `vectors/` has it.
pub fn answer(a: &Artifact<'_>) -> Vec<u64> {
    let mut words = vec![0, 0, 0, a.caps().into(), a.debug_id() as u64, (a.debug_id() >> 64) as u64];
    // Nothing is told of where an empty source name stands: behind the header and its own length.
    words.extend(a.source().map_or([29, 0], |source| span(a, source.as_bytes())));
    words.extend(span(a, a.blob().as_bytes()));
    words.extend(span(a, a.code()));
    words.extend(span(a, a.positions()));
    words.extend(chunk(a.main()));
    words.push(a.constants().len() as u64);
    words.extend(Table::ALL.map(|table| (a.table(table).len() / table.words()) as u64));
    words
}

/// The rows of a table.
pub fn table(a: &Artifact<'_>, table: Table) -> Vec<u64> {
    match table {
        Table::Names => ends(a),
        Table::Constants => trees(a),
        Table::Tokens => a.tokens().flat_map(|token| span(a, token.as_bytes())).collect(),
        Table::Assigns => assigns(a),
        Table::Chains => a.chains().flat_map(|c| chain(&c)).collect(),
        Table::Steps => a.chains().flat_map(|c| c.steps).flat_map(step).collect(),
        Table::Switches => switches(a),
        Table::Cases => {
            let cases = a.switches().flat_map(|s| s.cases);
            cases.flat_map(|c| [c.blocks.into(), c.constant.0.into()]).collect()
        }
        Table::Ranges => {
            let ranges = a.switches().flat_map(|s| s.ranges);
            ranges.flat_map(|r| [r.from as u64, r.to as u64, r.inclusive.into(), r.target.into()]).collect()
        }
        Table::Customs => a.customs().flat_map(|s| [s.key.0.into(), s.state.0.into(), s.inputs.len() as u64]).collect(),
        Table::Inputs => inputs(a),
        Table::Functions => functions(a),
        Table::Parameters => a.functions().flat_map(|f| f.parameters).map(|p| p.0.into()).collect(),
    }
}

/// Where a slice of the artifact's bytes begins, and its length.
fn span(a: &Artifact<'_>, part: &[u8]) -> [u64; 2] {
    let start = part.as_ptr() as usize - a.bytes().as_ptr() as usize;
    [start as u64, part.len() as u64]
}

fn chunk(c: Chunk) -> [u64; 3] {
    [c.entry.into(), c.end.into(), c.slots.into()]
}

fn position(p: Option<Position>) -> [u64; 2] {
    p.map_or([0, 0], |p| [p.line.into(), p.column.into()])
}

fn ends(a: &Artifact<'_>) -> Vec<u64> {
    let lengths = a.names().map(|name| name.len() as u64);
    lengths.scan(0, |end, length| Some(*end + length).inspect(|sum| *end = *sum)).collect()
}

fn assigns(a: &Artifact<'_>) -> Vec<u64> {
    let mut words = Vec::new();
    for (index, assign) in (0..).zip(a.assigns()) {
        assert_eq!(a.assign(grain::records::OperatorIndex(index)), Some(assign));
        words.extend(span(a, assign.op_assign.as_bytes()));
        words.push(assign.op_assign_name.0.into());
        words.extend(span(a, assign.op.as_bytes()));
        words.push(assign.op_name.0.into());
    }
    words
}

fn trees(a: &Artifact<'_>) -> Vec<u64> {
    let mut words = Vec::new();
    items(a, a.constants(), &mut words);
    words
}

fn items(a: &Artifact<'_>, constants: Constants<'_>, words: &mut Vec<u64>) {
    for constant in constants {
        tree(a, constant, [0, 0], words);
    }
}

/// A constant's row and those of its items.
fn tree(a: &Artifact<'_>, constant: Constant<'_>, key: [u64; 2], words: &mut Vec<u64>) {
    let mut row = |tag: u64, numbers: [u64; 2], span: [u64; 2], items: usize| {
        words.extend([tag, numbers[0], numbers[1], span[0], span[1], items as u64, key[0], key[1]]);
    };
    let none = [0, 0];
    match constant {
        Constant::Unit => row(0, none, none, 0),
        Constant::Bool(yes) => row(1 + u64::from(yes), none, none, 0),
        Constant::Int(value) => row(3, [value as u64, 0], none, 0),
        Constant::Float(value) => row(4, [value.to_bits(), 0], none, 0),
        Constant::Char(letter) => row(5, [u32::from(letter).into(), 0], none, 0),
        Constant::String(text) => row(6, none, span(a, text.as_bytes()), 0),
        Constant::Array(of) => {
            row(7, none, none, of.len());
            items(a, of, words);
        }
        Constant::Map(entries) => {
            row(8, none, none, entries.len());
            entries.for_each(|(key, value)| tree(a, value, span(a, key.as_bytes()), words));
        }
        Constant::Blob(bytes) => row(9, none, span(a, bytes), 0),
        Constant::Range { from, to } => row(10, [from as u64, to as u64], none, 0),
        Constant::RangeInclusive { from, to } => row(11, [from as u64, to as u64], none, 0),
        Constant::FnPtr { name, curried, kind } => {
            row(13, pointer(kind), span(a, name.as_bytes()), curried.len());
            items(a, curried, words);
        }
    }
}

fn pointer(kind: FnPtrKind) -> [u64; 2] {
    match kind {
        FnPtrKind::Normal => [0x81, 0],
        FnPtrKind::Script { parameters } => [0x82, parameters],
    }
}

fn chain(c: &Chain<'_>) -> Vec<u64> {
    let (tag, slot, name, at) = match c.root {
        Root::Local { slot, name } => (1, slot, name.0, None),
        Root::Temporary => (2, 0, 0, None),
        Root::Named { name, position } => (3, 0, name.0, position),
        Root::This { position } => (4, 0, 0, position),
    };
    let tail = match c.tail {
        Tail::Read => [1, 0],
        Tail::Assign => [2, 0],
        Tail::AssignOp { op } => [3, op.0.into()],
    };
    let root = [tag, slot.into(), name.into()];
    let counts = [c.operands.into(), c.steps.len() as u64];
    [&root[..], &position(at), &counts, &tail].concat()
}

fn step(s: Step) -> Vec<u64> {
    let flags = s.flags().0.into();
    let (head, at, bracket) = match s {
        Step::Index { operand, position, bracket, .. } => ([1, flags, operand.into(), 0, 0, 0, 0], position, bracket),
        Step::Property { name, getter, setter, position, .. } => {
            ([2, flags, 0, name.0.into(), getter.0.into(), setter.0.into(), 0], position, None)
        }
        Step::Method { name, argc, operand, position, .. } => {
            ([3, flags, operand.into(), name.0.into(), 0, 0, argc.into()], position, None)
        }
    };
    [&head[..], &position(at), &position(bracket)].concat()
}

fn switches(a: &Artifact<'_>) -> Vec<u64> {
    a.switches().flat_map(|s| [s.cases.len() as u64, s.ranges.len() as u64, s.default.into()]).collect()
}

fn inputs(a: &Artifact<'_>) -> Vec<u64> {
    let mut words = Vec::new();
    for input in a.customs().flat_map(|s| s.inputs) {
        words.extend(chunk(input.chunk));
        words.extend(input.literal.map_or([0, 0], |literal| [1, literal.0.into()]));
    }
    words
}

fn functions(a: &Artifact<'_>) -> Vec<u64> {
    let mut words = Vec::new();
    for f in a.functions() {
        let access = match f.access {
            Access::Public => 0,
            Access::Private => 1,
        };
        let this = f.this_type.map_or(0, |index| u64::from(index.0) + 1);
        words.extend([f.name.0.into(), access, this, f.parameters.len() as u64]);
        words.extend(chunk(f.chunk));
    }
    words
}
