//! What is changed, to what, and what is left alone.

use mutants::{changes, Change, Declared, File};

const RULES: &str = "\
    pub const LEAST: u64 = 1;
    pub const COUNT: usize = 2;
    pub const MOST: u64 = 3;
";

const DECLARED: &str = "\
    struct Pair { first: u64, second: u64, third: u8 }
    enum Found { At(usize, u64), Nothing }
    fn count() -> u8 ensures { result < 1 } { x() }
    fn given() -> Result<Found, Pair> ensures { result < 1 } { x() }
    fn f() -> Option<u64> { x() }
    fn few() -> u8 requires { 0 < 1 } ensures few { result < 1 } ensures { 0 < 1 } { x() }
";

const PARAMS: &str = "v: u64, n: usize, c: u8, list: &[u8], p: Pair, w: u64, found: Found";

/// The changes of a file of the crate `own`, beside a crate `rules`.
fn changes_of(source: &str) -> Vec<Change> {
    let files = [File::of("rules", RULES), File::of("own", source)];
    changes(&files[1], &Declared::of("own", &files))
}

/// Checks what the last line of a function's body is changed to.
#[track_caller]
fn check(body: &str, expected: &[&str]) {
    let source = format!("{DECLARED}fn f({PARAMS}) {{\n{body}\n}}\n");
    let last = source.lines().count() - 1;
    let mut found = changes_of(&source);
    found.retain(|it| it.line == last);
    let news: Vec<&str> = found.iter().map(|it| it.new.as_str()).collect();
    assert_eq!(news, expected);
}

#[test]
fn comparisons() {
    check("x() == y()", &["x() != y()"]);
    check("x() != y()", &["x() == y()"]);
    check("x() < y()", &["x() <= y()", "y() < x()"]);
    check("x() <= y()", &["x() < y()", "y() <= x()"]);
    check("x() > y()", &["x() >= y()", "y() > x()"]);
    check("x() >= y()", &["x() > y()", "y() >= x()"]);
}

#[test]
fn numbers() {
    check("x(9)", &["x(10)"]);
    check("x(0u64)", &["x(1u64)"]);
    check("x(4_095)", &["x(4096)"]);
    check("1 << 36", &["2 << 36", "1 << 37"]);
    check("x(0..9)", &["x(1..9)", "x(0..10)"]);
    check("x(0.0, 2.5)", &["x(1.0, 2.5)", "x(0.0, 0.0)"]);
    check("[0u8; 7]", &["[1u8; 7]", "[0u8; 8]"]);
}

#[test]
fn named_constants() {
    check("x(LEAST)", &["x(rules::MOST)"]);
    check("x(MOST)", &["x(rules::LEAST)"]);
    check("x(COUNT, UNKNOWN, other::MOST)", &[]);
    let own = changes_of("const A: u8 = x();\nconst MOST: u64 = x();\nconst C: u8 = A + MOST;\n");
    assert_eq!(own.len(), 1);
    assert_eq!(own[0].new, "const C: u8 = C + MOST;");
}

#[test]
fn variables() {
    check("x(v)", &["x(w)"]);
    check("x(w)", &["x(v)"]);
    check("list[n]", &[]);
    check("x(n as u64)", &["x(c as u64)"]);
    check("if x() { w }", &["if x() { v }"]);
    check("Pair { v, w: n }", &["Pair { v: w, w: n }"]);
    check("v = x(); v += y.w; w(); w::x(); Pair { w: n }", &[]);
}

#[test]
fn locals_have_the_type_of_their_value() {
    check("let l: u8 = x();\ny(l)", &["y(c)"]);
    check("let l = p.third;\ny(l)", &["y(c)"]);
    check("let l = list[n];\ny(l)", &["y(c)"]);
    check("let l = list.len();\ny(l)", &["y(n)"]);
    check("let l = v::count();\ny(l)", &["y(c)"]);
    check("let l = few();\ny(l)", &["y(c)"]);
    check("let l = x(v) as usize + 1;\ny(l)", &["y(n)"]);
    check("let l = 3 + (n - 1);\ny(l)", &["y(n)"]);
    check("let l = LEAST;\ny(l)", &["y(v)"]);
    check("let l = Pair { first: 1 };\ny(l)", &["y(p)"]);
    check("let a = [0u8; 4]; let b = [0u8; 4];\ny(b)", &["y(a)"]);
    check("let l = unknown(v);\ny(l)", &[]);
}

#[test]
fn numbers_have_the_type_of_their_counterpart() {
    check("let l = 0; while l < list.len() {}\ny(l)", &["y(n)"]);
    check("let l = 0; l = p.third;\ny(l)", &["y(c)"]);
    check("let l = 0; l += 1;\ny(l)", &[]);
}

#[test]
fn patterns_bind_what_a_variant_holds() {
    check("let Found::At(i, _) = found else {};\ny(i)", &["y(n)"]);
    check("if let Found::At(_, u) = found {\ny(u) }", &["y(v) }"]);
    check("match found { Found::At(_, u) =>\ny(u) }", &["y(v) }"]);
}

#[test]
fn arms_bind_what_their_patterns_hold() {
    check(
        "match found { Found::Nothing => v, Found::At(i, _) =>\ny(i) }",
        &["y(n) }"],
    );
    check(
        "match f() { Some(u) if\ny(u) => a(), None => b() }",
        &["y(v) => a(), None => b() }"],
    );
    check("match few() { u | (u) =>\ny(u) }", &["y(c) }"]);
    check(
        "match z { Found::At(_, u) => { x() } Found::Nothing =>\ny(u) }",
        &[],
    );
    check(
        "match given() { Ok(Found::At(i, _)) =>\ny(i), Err(_) => b() }",
        &["y(n), Err(_) => b() }"],
    );
}

#[test]
fn patterns_bind_the_fields_of_a_struct() {
    check("let Pair { first, third: t, .. } = p;\ny(t)", &["y(c)"]);
    check("let Pair { first, third: t, .. } = p;\ny(first)", &["y(v)"]);
    check(
        "let (Pair { first, .. }, u) = x();\ny(first, u)",
        &["y(v, u)"],
    );
    check(
        "if let Ok(Pair { third, .. }) = x() {\ny(third) }",
        &["y(c) }"],
    );
}

#[test]
fn loops_bind_numbers_and_entries() {
    check("for k in 0..list.len() {\ny(k) }", &["y(n) }"]);
    check(
        "for (k, &e) in list.iter().enumerate() {\ny(e) }",
        &["y(c) }"],
    );
    check(
        "for (k, &e) in list.iter().enumerate() {\ny(k) }",
        &["y(n) }"],
    );
    check("for e in list.iter() {\ny(e) }", &["y(c) }"]);
    check("for e in list.iter().rev() {\ny(e) }", &[]);
}

#[test]
fn values_have_the_type_of_their_last_part() {
    check("let l = given()?;\ny(l)", &["y(found)"]);
    check("let l = p.first.max(x());\ny(l)", &["y(v)"]);
    check("let l = p.first.few();\ny(l)", &["y(c)"]);
}

#[test]
fn methods() {
    let source = "struct Two<'a> { a: &'a [u8], b: &'a [u8], n: u8 }\n\
        impl Two<'_> { fn f(self) -> u8 {\nx(self.a)\n} }\n\
        impl From<u8> for Two<'_> { ghost from_gives = { λ x. 1 < 2 };\n\
        fn from(n: u8, m: u8) -> Two {\nx(n)\n} }\n";
    let found = changes_of(source);
    let news: Vec<&str> = found.iter().map(|it| it.new.as_str()).collect();
    assert_eq!(news, ["x(self.b)", "x(m)"]);
}

#[test]
fn locals_are_known_in_their_block() {
    check("{ let l = c; }\ny(c)", &[]);
    check("let c = v;\ny(c)", &["y(v)"]);
    check("let l =\ny(c);", &[]);
}

#[test]
fn fields() {
    check("x(p.first)", &["x(p.second)"]);
    check("x(p.second)", &["x(p.first)"]);
    check("x(p.third, p.len(), unknown.first)", &[]);
}

#[test]
fn operands_the_other_way_round() {
    check("return x - y;", &["return y - x;"]);
    check("x + y - z", &["z - (x + y)"]);
    check("x - y - z", &["y - x - z", "z - (x - y)"]);
    check("x * y - z", &["z - x * y"]);
    check("(x + y) % z", &["z % (x + y)"]);
    check("f(x, y % z, x)", &["f(x, z % y, x)"]);
    check("x.y[i] as u64 / f::g(x)", &["f::g(x) / x.y[i] as u64"]);
    check(
        "if x << y < z {}",
        &["if x << y <= z {}", "if z < x << y {}"],
    );
    check("x\n- y", &[]);
}

#[test]
fn only_code_is_changed() {
    let source = "\
        // 1 < 2
        ghost use Library.{◌<◌, LEAST};
        use rules::LEAST;
        #[align(8)]
        #[derive(Drop)]
        struct Buffer { bytes: [u8; 4] }
        enum Byte { At([u8; 4]) }
        #[unsafe(no_mangle)]
        pub extern \"C\" fn f(a: [u8; 4], b: [u8; 4]) -> [u8; 4]
            requires { a.now < 1 }
            requires room { a.now < 1 }
            ensures { LEAST ≤ 1 }
            ensures kept { { a } ≡ result }
        {
            let x: [u8; 4] = y(b\"1 < \\\" 2\", p.0); // 1 < 2
        }
        fn declared(a: u8);
        ";
    assert_eq!(changes_of(source), []);
}

#[test]
fn a_change_is_one_line() {
    let source = "const A: u64 = x();\n\nconst B: u8 =\n    2;\n";
    let change = Change {
        line: 4,
        old: "    2;".to_string(),
        new: "    3;".to_string(),
    };
    let applied = change.applied(source);
    assert_eq!(changes_of(source), [change]);
    assert_eq!(applied, "const A: u64 = x();\n\nconst B: u8 =\n    3;\n");
}
