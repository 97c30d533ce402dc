//! "The task table", rows 1 to 8 of "Refused tables", and row 15 of document 02.

/// The number of a refusal and its place.
pub type Refusal = (u32, usize);

/// "Sort 0 plain, 1 call, 2 spawn, 3 sync."
#[derive(Clone, Copy, PartialEq, Eq, Debug)]
pub enum Sort {
    Plain,
    Call,
    Spawn,
    Sync,
}

/// "Sort 1 is an entry, sort 0 is not. a is the first node, b the exit node, c the frame in bytes."
#[derive(Clone, Debug)]
pub struct Function {
    pub entry: bool,
    pub first: usize,
    pub exit: usize,
    /// As it stands in the table. Rules go by what it counts as.
    pub frame: u32,
}

/// "a is the owning function. b is the target function of a call or spawn, else 0."
#[derive(Clone, Debug)]
pub struct Node {
    pub sort: Sort,
    pub owner: usize,
    pub target: usize,
}

/// A table that none of the refusals 1 to 8 applies to. An edge is a pair of nodes, and they stand as in the table.
#[derive(Clone, Debug)]
pub struct Program {
    pub functions: Vec<Function>,
    pub nodes: Vec<Node>,
    pub edges: Vec<(usize, usize)>,
}

const FUNCTION: u8 = 1;
const NODE: u8 = 2;
const EDGE: u8 = 3;

/// "Byte 0 is the kind and byte 1 the sort. Then come three 16-bit little-endian numbers a, b, c."
struct Record {
    kind: u8,
    sort: u8,
    a: usize,
    b: usize,
    c: usize,
}

/// "A table is a run of 8-byte records without a header."
fn records(bytes: &[u8]) -> Vec<Record> {
    let number = |low: u8, high: u8| low as usize + 256 * high as usize;
    let mut all = Vec::new();
    for r in bytes.chunks_exact(8) {
        all.push(Record {
            kind: r[0],
            sort: r[1],
            a: number(r[2], r[3]),
            b: number(r[4], r[5]),
            c: number(r[6], r[7]),
        });
    }
    all
}

/// The records of one kind. "Functions and nodes are numbered from 0 in record order."
fn of_kind(records: &[Record], kind: u8) -> Vec<&Record> {
    records.iter().filter(|r| r.kind == kind).collect()
}

fn is_call_or_spawn(r: &Record) -> bool {
    r.kind == NODE && (r.sort == 1 || r.sort == 2)
}

/// 1: "length no multiple of 8", place "count of whole records".
fn refusal_1(bytes: &[u8]) -> Option<usize> {
    if bytes.len() % 8 != 0 {
        return Some(bytes.len() / 8);
    }
    None
}

/// 2: "kind or sort not listed, or a field that must be 0 isn't", place "the record".
fn refusal_2(records: &[Record]) -> Option<usize> {
    for (place, r) in records.iter().enumerate() {
        let listed = match r.kind {
            FUNCTION => r.sort <= 1,
            // "b is the target function of a call or spawn, else 0. c is 0."
            NODE => r.sort <= 3 && (is_call_or_spawn(r) || r.b == 0) && r.c == 0,
            // "Sort 0. Control may pass from node a to node b. c is 0."
            EDGE => r.sort == 0 && r.c == 0,
            _ => false,
        };
        if !listed {
            return Some(place);
        }
    }
    None
}

/// 3: "kind lower than that of the record before", place "the record".
fn refusal_3(records: &[Record]) -> Option<usize> {
    for place in 1..records.len() {
        if records[place].kind < records[place - 1].kind {
            return Some(place);
        }
    }
    None
}

/// 4: "one more of its kind than allowed", place "that record".
/// "At most 64 functions, 512 nodes, 1,024 edges."
fn refusal_4(records: &[Record]) -> Option<usize> {
    let mut seen = [0; 4];
    for (place, r) in records.iter().enumerate() {
        let allowed = match r.kind {
            FUNCTION => 64,
            NODE => 512,
            _ => 1024,
        };
        seen[r.kind as usize] += 1;
        if seen[r.kind as usize] == allowed + 1 {
            return Some(place);
        }
    }
    None
}

/// 5: "no function, or no entry", place 0.
fn refusal_5(records: &[Record]) -> Option<usize> {
    let functions = of_kind(records, FUNCTION);
    if functions.is_empty() || functions.iter().all(|f| f.sort != 1) {
        return Some(0);
    }
    None
}

/// 6: "a function or node number that doesn't exist", place "the record".
fn refusal_6(records: &[Record]) -> Option<usize> {
    let functions = of_kind(records, FUNCTION).len();
    let nodes = of_kind(records, NODE).len();
    for (place, r) in records.iter().enumerate() {
        let exist = match r.kind {
            FUNCTION => r.a < nodes && r.b < nodes,
            NODE => r.a < functions && (!is_call_or_spawn(r) || r.b < functions),
            _ => r.a < nodes && r.b < nodes,
        };
        if !exist {
            return Some(place);
        }
    }
    None
}

/// 7: "first or exit node owned by another function; edge between two functions", place "the function's record, or the
/// edge's".
fn refusal_7(records: &[Record]) -> Option<usize> {
    let nodes = of_kind(records, NODE);
    for (place, r) in records.iter().enumerate() {
        // Functions stand first (3), so the record's place is the function's number.
        let own = match r.kind {
            FUNCTION => nodes[r.a].a == place && nodes[r.b].a == place,
            NODE => true,
            _ => nodes[r.a].a == nodes[r.b].a,
        };
        if !own {
            return Some(place);
        }
    }
    None
}

/// 8: "first or exit node not plain", place "the function's record".
fn refusal_8(records: &[Record]) -> Option<usize> {
    let nodes = of_kind(records, NODE);
    for (place, r) in records.iter().enumerate() {
        if r.kind == FUNCTION && (nodes[r.a].sort != 0 || nodes[r.b].sort != 0) {
            return Some(place);
        }
    }
    None
}

/// 15: "an edge not above the one before it", place "the record". "Edges must now ascend by from-node and then to-node,
/// each once."
fn refusal_15(records: &[Record]) -> Option<usize> {
    for place in 1..records.len() {
        let (before, r) = (&records[place - 1], &records[place]);
        if before.kind == EDGE && r.kind == EDGE && (r.a, r.b) <= (before.a, before.b) {
            return Some(place);
        }
    }
    None
}

/// A table "in the old free order": its edges "may stand in any order and may repeat". "The lowest number wins, then the
/// earliest record or node."
pub fn check_free(bytes: &[u8]) -> Result<Program, Refusal> {
    if let Some(place) = refusal_1(bytes) {
        return Err((1, place));
    }
    let records = records(bytes);
    let checks = [refusal_2, refusal_3, refusal_4, refusal_5, refusal_6, refusal_7, refusal_8];
    for (i, check) in checks.iter().enumerate() {
        if let Some(place) = check(&records) {
            return Err((i as u32 + 2, place));
        }
    }

    let mut program = Program { functions: Vec::new(), nodes: Vec::new(), edges: Vec::new() };
    for r in &records {
        match r.kind {
            FUNCTION => {
                program.functions.push(Function { entry: r.sort == 1, first: r.a, exit: r.b, frame: r.c as u32 })
            }
            NODE => program.nodes.push(Node {
                sort: [Sort::Plain, Sort::Call, Sort::Spawn, Sort::Sync][r.sort as usize],
                owner: r.a,
                target: r.b,
            }),
            _ => program.edges.push((r.a, r.b)),
        }
    }
    Ok(program)
}

/// A table in the order that edges must have now: 15 comes "after 8".
pub fn check(bytes: &[u8]) -> Result<Program, Refusal> {
    let program = check_free(bytes)?;
    match refusal_15(&records(bytes)) {
        Some(place) => Err((15, place)),
        None => Ok(program),
    }
}
