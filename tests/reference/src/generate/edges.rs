//! Sources at the edge of every limit, with the status and place that document
//! 01 gives them by construction.

/// A call at an edge.
#[derive(Clone, Debug)]
pub struct Edge {
    pub source: Vec<u8>,
    pub table_words: usize,
    pub code_bytes: usize,
    pub status: u32,
    pub place: usize,
}

/// A source with its status and place if the buffers are long enough.
type Judged = (String, u32, usize);

/// All edges, the refused mostly one step past the accepted.
pub fn edges() -> Vec<Edge> {
    let judged = [
        bytes(),
        numbers(),
        name_lengths(),
        tokens(),
        expression_depths(),
        process_depths(),
        array_lengths(),
        names(),
        words(),
        orders(),
    ];
    let longest = (4 * 1_024, 48 * 1_024 + 256);
    judged.into_iter().flatten().map(|judged| lent(judged, longest)).chain(buffers()).collect()
}

fn lent((source, status, place): Judged, (table_words, code_bytes): (usize, usize)) -> Edge {
    Edge { source: source.into_bytes(), table_words, code_bytes, status, place }
}

/// The place of a refusal, and 0 of status 0.
fn place_if(status: u32, place: usize) -> usize {
    if status == 0 {
        0
    } else {
        place
    }
}

/// 1: "source above 16,384 bytes".
fn bytes() -> Vec<Judged> {
    let mut edges = vec![
        (" ".repeat(16_384), 6, 16_384),
        (" ".repeat(16_385), 1, 0),
        (format!("skip|{}", "c".repeat(16_379)), 2, 4),
        (format!("skip|{}", "c".repeat(16_380)), 1, 0),
        ("n".repeat(16_384), 4, 0),
        ("0".repeat(16_384), 6, 0),
        ("$".repeat(16_384), 2, 0),
        ("$".repeat(16_385), 1, 0),
    ];
    for (length, status) in [(16_383, 0), (16_384, 0), (16_385, 1), (40_000, 1)] {
        edges.push((" ".repeat(length - 4) + "skip", status, 0));
        edges.push(("skip".to_string() + &"\n".repeat(length - 4), status, 0));
        edges.push((format!("|{}|skip", "c".repeat(length - 6)), status, 0));
    }
    edges
}

/// 3: "decimal above 2,147,483,647 or hex above FFFFFFFF".
fn numbers() -> Vec<Judged> {
    const FITTING: &str =
        "0 2147483647 00000000002147483647 #0 #7FFFFFFF #80000000 #ffffFFFF #0000000000FFFFFFFF";
    const TOO_LARGE: &str = "2147483648 4294967295 4294967296 21474836470 18446744073709551615 \
        18446744073709551616 18446744073709551617 99999999999999999999999999999999999999999 \
        00000000002147483648 #100000000 #00000000100000000 #10000000000000000 #123456789abcdefABCDEF0123";
    let mut edges = Vec::new();
    for (numbers, status) in [(FITTING, 0), (TOO_LARGE, 3)] {
        for number in numbers.split_whitespace() {
            edges.push((format!("val k = {number}; skip"), status, place_if(status, 8)));
            edges.push((format!("var x; x := -{number}"), status, place_if(status, 13)));
        }
    }
    edges
}

/// 4: "name above 32 bytes".
fn name_lengths() -> Vec<Judged> {
    let (one, other) = ("n".repeat(31) + "a", "n".repeat(31) + "b");
    let mut edges = vec![(format!("var {one}; var {other}; {one} := {other}"), 0, 0)];
    for (length, status) in [(31, 0), (32, 0), (33, 4), (1_000, 4)] {
        let name = &format!("a{}", "_9Z".repeat(length))[..length];
        edges.push((format!("var {name}; {name} := {name}"), status, place_if(status, 4)));
    }
    edges
}

/// 5: "more than 1,024 tokens, comments counted".
fn tokens() -> Vec<Judged> {
    let comments = |count: usize| "||".repeat(count);
    let list = |count: usize| format!("{{{}}}", vec!["skip"; count].join(";"));
    let mut edges = vec![
        (comments(1_023) + "skip", 0, 0),
        (comments(1_023) + "skip  \n", 0, 0),
        (comments(1_024) + "skip", 5, 2_048),
        (comments(1_024), 6, 2_048),
        (comments(1_025), 5, 2_048),
        (list(511), 0, 0),
        (comments(1) + &list(511), 0, 0),
        (list(512), 5, list(512).len() - 1),
        (comments(1_024) + &"n".repeat(33), 4, 2_048),
    ];
    for (token, status) in [("'", 2), ("$", 2), ("|", 2), (":", 2), ("2147483648", 3), ("#100000000", 3)] {
        edges.push((comments(1_023) + token, status, 2_046));
        edges.push((comments(1_024) + token, status, 2_048));
        edges.push((comments(1_024) + "skip " + token, 5, 2_048));
    }
    edges
}

/// 13 and 14: "table shorter than 4 x tokens words", "code buffer shorter than
/// 48 x tokens + 256 bytes".
fn buffers() -> Vec<Edge> {
    let large = "||".repeat(1_023) + "skip";
    let sources =
        [("", 0, 6, 0), ("skip", 1, 0, 0), ("skip;", 2, 6, 4), ("x:=1", 3, 8, 0), (&large, 1_024, 0, 0)];
    let mut edges =
        vec![lent(("skip $".to_string(), 2, 5), (0, 0)), lent((" ".repeat(16_385), 1, 0), (0, 0))];
    for (source, tokens, status, place) in sources {
        let mut push = |table, code, status, place| {
            edges.push(lent((source.to_string(), status, place), (table, code)));
        };
        let (table, code) = (4 * tokens, 48 * tokens + 256);
        push(table, code, status, place);
        push(table + 5, code + 5, status, place);
        push(table, code - 1, 14, 0);
        push(table, 0, 14, 0);
        if table > 0 {
            push(table - 1, code, 13, 0);
            push(table - 1, code - 1, 13, 0);
        }
    }
    edges
}

/// A process after what the edges of depth declare.
fn declared(process: String) -> String {
    format!("var x; array v[1]; {process}")
}

/// 7: "depth of an expression, assigned element or process above 32".
fn expression_depths() -> Vec<Judged> {
    let mut edges = Vec::new();
    for (depth, status) in [(31, 0), (32, 0), (33, 7), (100, 7)] {
        let mut expressions = vec![
            nested("(", "1", ")", depth - 1),
            nested("v[", "0", "]", depth - 1),
            by_twos("-(", ["1", "-1"], ")", depth),
            by_twos("1-(", ["1", "1-1"], ")", depth),
            by_twos("(", ["1", "1<1"], ")<1", depth),
        ];
        // A chain is as deep as it has operands, if none is deeper than a name.
        for operator in ["+", "*", " and ", " or ", " xor "] {
            let start = |operands: usize| format!("x{operator}").repeat(operands);
            expressions.push(start(depth - 1) + "x");
            expressions.push(start(depth - 2) + "(x)");
            expressions.push(start(depth - 3) + "(x)" + operator + "x");
            expressions.push(nested("(", "x", ")", depth - 2) + operator + "x" + operator + "x");
        }
        let mut processes = vec![
            format!("{} := 0", nested("v[", "0", "]", depth - 1)),
            format!("v[{}] := 0", nested("(", "0", ")", depth - 2)),
        ];
        for expression in expressions {
            processes.push(format!("x := {expression}"));
            processes.push(format!("v[0] := {expression}"));
            processes.push(format!("if {expression} then skip else skip"));
            processes.push(format!("while {expression} do skip"));
            processes.push(format!("if 1 then {{skip; while 1 do x := {expression}}} else skip"));
        }
        edges.extend(processes.into_iter().map(|process| (declared(process), status, 0)));
    }
    edges
}

fn process_depths() -> Vec<Judged> {
    // Expressions and processes are counted by themselves.
    let both = nested("{", &format!("x := {}", nested("(", "1", ")", 31)), "}", 31);
    let mut edges = vec![(declared(both), 0, 0)];
    for (depth, status) in [(31, 0), (32, 0), (33, 7), (100, 7)] {
        let processes = [
            nested("{", "", "}", depth),
            nested("{", "skip", "}", depth - 1),
            nested("{skip;", "stop", ";skip}", depth - 1),
            nested("while 0 do ", "x := 1", "", depth - 1),
            nested("if 0 then ", "skip", " else skip", depth - 1),
            nested("if 0 then skip else ", "v[0] := 1", "", depth - 1),
            nested("while 0 do ", "{}", "", depth - 1),
            by_twos("{if 1 then skip else ", ["skip", "while 1 do stop"], "}", depth),
        ];
        edges.extend(processes.map(|process| (declared(process), status, 0)));
    }
    edges
}

/// 11: "array length, read unsigned, not 1 to 8,192".
fn array_lengths() -> Vec<Judged> {
    const FITTING: &str = "1 2 8191 8192 #1 #2000 'a' '*#01'";
    const NOT_FITTING: &str = "0 8193 9000 #2001 2147483647 #80000000 #80000001 #FFFFFFFF true false '*#00'";
    let mut edges = Vec::new();
    for (lengths, status) in [(FITTING, 0), (NOT_FITTING, 11)] {
        for length in lengths.split_whitespace() {
            let mut push = |start: &str, length: &str| {
                let source = format!("{start}array a[{length}]; skip");
                edges.push((source, status, place_if(status, start.len() + 6)));
            };
            push("", length);
            push(&format!("val k = {length}; "), "k");
            push(&format!("val k = {length}; val l = k; "), "l");
        }
    }
    edges
}

/// 12: "more than 256 names".
fn names() -> Vec<Judged> {
    let many = |count: usize, before: &str, after: &str| {
        (0..count).map(|number| format!("{before}{number}{after};")).collect::<String>()
    };
    let vars = |count| many(count, "var n", "");
    let passing = vars(256).len() + 4;
    let mut edges = vec![(vars(257) + "skip", 12, passing), (vars(300) + "skip", 12, passing)];
    for start in [vars(256), vars(200) + &many(56, "val k", "=1"), vars(220) + &many(36, "array a", "[1]")] {
        let next = start.len();
        for (more, status, place) in [
            ("", 0, 0),
            ("var q;", 12, next + 4),
            ("val q = 1;", 12, next + 4),
            ("val q = zz;", 12, next + 4),
            ("array q[1];", 12, next + 6),
            ("array q[zz];", 12, next + 6),
            ("array q[0];", 11, next + 6),
            ("var n0;", 9, next + 4),
        ] {
            edges.push((format!("{start}{more}skip"), status, place));
        }
    }
    edges
}

/// 12: "data above 8,192 words".
fn words() -> Vec<Judged> {
    let many =
        "array a[8092];".to_string() + &(0..100).map(|number| format!("var n{number};")).collect::<String>();
    let next = many.len();
    let edges = [
        ("array a[8192]; a[8191] := 1", 0, 0),
        ("array a[8192]; val k = 1; a[0] := k", 0, 0),
        ("array a[8192]; var x; skip", 12, 19),
        ("array a[8192]; array b[1]; skip", 12, 21),
        ("var x; array a[8192]; skip", 12, 13),
        ("array a[8191]; var x; x := a[8190]", 0, 0),
        ("array a[8191]; var x; var y; skip", 12, 26),
        ("var x; array a[8191]; a[8190] := x", 0, 0),
        ("array a[4096]; array b[4096]; b[0] := a[0]", 0, 0),
        ("array a[4096]; array b[4096]; array c[1]; skip", 12, 36),
        ("array a[8000]; array b[8000]; var x; skip", 12, 21),
        ("array a[9000]; skip", 11, 6),
        (&(many.clone() + "skip"), 0, 0),
        (&(many.clone() + "var x; skip"), 12, next + 4),
    ];
    edges.map(|(source, status, place)| (source.to_string(), status, place)).to_vec()
}

/// Two refusals in one source: which of them is given.
fn orders() -> Vec<Judged> {
    let deep = nested("(", "1", ")", 40);
    let long = "n".repeat(33);
    let edges = [
        (&*format!("{long} $"), 4, 0),
        (&*format!("$ {long}"), 2, 0),
        (&*format!("2147483648 {long} $"), 3, 0),
        (&*format!("skip; {long}"), 4, 6),
        (&*format!("skip; x := {deep}"), 6, 4),
        (&*format!("x := {deep} ;"), 6, 87),
        (&*format!("x := {deep}"), 7, 0),
        (&*format!("var x; var x; x := {deep}"), 7, 0),
        ("var x; var x; y := 1", 9, 11),
        ("y := z", 8, 0),
        ("var x; {x[y] := 1; z := 1}", 10, 8),
        ("array a[0]; array a[0]; skip", 11, 6),
        ("val k = 1; array k[0]; skip", 9, 17),
        ("array a[b]; array b[0]; skip", 8, 8),
        ("array a[8192]; array a[1]; skip", 9, 21),
        ("array a[8192]; array b[0]; skip", 11, 21),
        ("array a[8192]; array b[9000]; skip", 11, 21),
        ("array a[8192]; array b[c]; skip", 8, 23),
    ];
    edges.map(|(source, status, place)| (source.to_string(), status, place)).to_vec()
}

/// Something of this depth inside pairs that each add 2: the first of `inside`
/// is of depth 1, the second of depth 2.
fn by_twos(open: &str, inside: [&str; 2], close: &str, depth: usize) -> String {
    nested(open, inside[(depth - 1) % 2], close, (depth - 1) / 2)
}

/// Something inside so many pairs.
fn nested(open: &str, inside: &str, close: &str, count: usize) -> String {
    open.repeat(count) + inside + &close.repeat(count)
}
