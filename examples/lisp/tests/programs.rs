//! Programs on one node and on two, with a heap in which they need the collector.

use lisp::run::{run, Outcome};

const SMALL: u32 = 4_000;
const LARGE: u32 = 1_000_000;

fn on_one_of(program: &str, slots: u32) -> Outcome {
    let outcome = run(&[program, ""], slots).expect("a space opens");
    assert_eq!(outcome.live, [0, 0], "{program}");
    outcome
}

fn on_one(program: &str) -> String {
    on_one_of(program, SMALL).values[0].clone()
}

fn on_two(first: &str, second: &str) -> Outcome {
    let outcome = run(&[first, second], SMALL).expect("a space opens");
    assert_eq!(outcome.live, [0, 0]);
    outcome
}

fn have_values(expected: &[(&str, &str)]) {
    for (program, value) in expected {
        assert_eq!(on_one(program), *value, "{program}");
    }
}

// The numbers from 1 on, as a list is shown.
fn up_to(last: u32) -> String {
    let numbers: Vec<String> = (1..=last).map(|it| it.to_string()).collect();
    format!("({})", numbers.join(" "))
}

#[test]
fn expressions_have_values() {
    have_values(&[
        ("7", "7"),
        ("(+ 1 (- (* 2 3) 8))", "-1"),
        ("'(a (b c) () 3)", "(a (b c) () 3)"),
        ("(cons 1 2)", "(1 . 2)"),
        ("(cdr (list 1 2 3))", "(2 3)"),
        ("(if (< 1 2) 'yes 'no)", "yes"),
        ("(if (eq 'a 'b) 'yes 'no)", "no"),
        ("((lambda (x y) (- x y)) 9 4)", "5"),
        ("(define f (lambda (n) (if (< n 2) n (+ (f (- n 1)) (f (- n 2)))))) (f 12)", "144"),
        ("(define x 1) (define f (lambda () x)) (define x 2) (f) ; the later one", "2"),
        ("(define add (lambda (n) (lambda (m) (+ n m)))) ((add 3) 4)", "7"),
        ("((lambda (car) (car 1)) (lambda (n) (+ n 1)))", "2"),
        ("(define + *) (+ 3 4)", "12"),
        ("(define p (cons 1 2)) (set-car p p) (set-cdr p ()) (eq p (car p))", "t"),
        ("(car 1)", "error: the value isn't a pair"),
        ("(nobody)", "error: nobody isn't bound"),
        ("(1 2)", "error: the value isn't a function"),
        ("((lambda (x) x))", "error: an argument is missing"),
        ("((lambda (x) x) 1 2)", "error: an argument is too much"),
        ("((lambda (1) 2) 3)", "error: a name isn't a symbol"),
        ("(null 1 2)", "error: null has other arguments"),
        ("(car (list 1)", "error: a ) is missing"),
        ("(list 1))", "error: a ) is too much"),
        ("''a", "(quote a)"),
        ("'(1 ('2))", "(1 ((quote 2)))"),
        ("(list 'a')", "error: nothing follows '"),
        ("'", "error: nothing follows '"),
    ]);
}

#[test]
fn numbers_have_61_bits() {
    have_values(&[
        ("1152921504606846975", "1152921504606846975"),
        ("(- -1152921504606846974 1)", "-1152921504606846975"),
        ("(* 1073741823 1073741825)", "1152921504606846975"),
        ("(+ 1152921504606846975 1)", "error: the number is too large"),
        ("(* 4294967296 4294967296)", "error: the number is too large"),
        ("1152921504606846976", "error: the number is too large"),
        ("99999999999999999999", "error: the number is too large"),
    ]);
}

#[test]
fn strings_have_values() {
    have_values(&[
        (r#""a b""#, r#""a b""#),
        (r#""tab\t, line\n, quote\", backslash\\""#, r#""tab\t, line\n, quote\", backslash\\""#),
        ("\"two\nlines\"", r#""two\nlines""#),
        (r#"(list "a" 'b 3 "")"#, r#"("a" b 3 "")"#),
        (r#"(string-length ";(b)'")"#, "5"),
        (r#"(string-length "\"\n\\")"#, "3"),
        (r#"(string-length "größer")"#, "6"),
        (r#"(string-append "ab" "" "cd" "e")"#, r#""abcde""#),
        ("(string-append)", r#""""#),
        (r#"(string=? "abc" (string-append "a" "bc"))"#, "t"),
        (r#"(string=? "abc" "abd")"#, "()"),
        (r#"(define s "a") (list (eq s s) (eq s "a"))"#, "(t ())"),
        (r#"(list (string? "") (string? 'a) (string? 1) (string? ()))"#, "(t () () ())"),
        (r#"(string-append (number->string (- 2 44)) "!")"#, r#""-42!""#),
    ]);
}

#[test]
fn wrong_strings_are_errors() {
    have_values(&[
        ("(string-length 7)", "error: the value isn't a string"),
        ("(string-length ())", "error: the value isn't a string"),
        (r#"(string-append "a" 'b)"#, "error: the value isn't a string"),
        (r#"(string=? "a" 1)"#, "error: the value isn't a string"),
        (r#"(number->string "1")"#, "error: the value isn't a number"),
        (r#"(+ 1 "1")"#, "error: the value isn't a number"),
        (r#"(car "a")"#, "error: the value isn't a pair"),
        ("(string-length)", "error: string-length has other arguments"),
        (r#"(list "abc)"#, r#"error: a " is missing"#),
        (r#""abc\"#, r#"error: a " is missing"#),
        (r#""a\qb""#, r"error: \q isn't an escape"),
    ]);
    let program = r#"(define double (lambda (s) (double (string-append s s)))) (double "ab")"#;
    assert_eq!(on_one(program), "error: the object would have too many bytes");
}

#[test]
fn a_recursion_is_as_deep_as_the_heap_allows() {
    // At the bottom a loop makes more objects than there are slots, while 10,000 calls wait.
    let sum = "(define loop (lambda (n) (if (eq n 0) 0 (loop (- n 1)))))
        (define f (lambda (n) (if (eq n 0) (loop 10000) (+ n (f (- n 1))))))";
    let outcome = on_one_of(&format!("{sum} (f 10000)"), 80_000);
    assert_eq!(outcome.values[0], "50005000");
    assert!(outcome.cycles > 1, "{} cycles", outcome.cycles);
    let outcome = on_one_of(&format!("{sum} (f 40000)"), LARGE);
    assert_eq!(outcome.values[0], "800020000");
    let endless = "(define f (lambda (n) (+ n (f n)))) (f 1)";
    assert_eq!(on_one(endless), "error: the node has no slot left");
    // A call in last place takes no frame.
    let program = "(define f (lambda (n) (if (eq n 0) 'done (f (- n 1))))) (f 3000)";
    assert_eq!(on_one(program), "done");
}

#[test]
fn a_list_of_100_000_elements_is_made_summed_and_shown() {
    let program = "(define up (lambda (n list) (if (eq n 0) list (up (- n 1) (cons n list)))))
        (define numbers (up 100000 ()))
        (define add (lambda (list sum) (if (null list) sum (add (cdr list) (+ sum (car list))))))
        (cons (add numbers 0) numbers)";
    let outcome = on_one_of(program, LARGE);
    assert_eq!(outcome.values[0], up_to(100_000).replacen('(', "(5000050000 ", 1));
    assert!(outcome.cycles > 1, "{} cycles", outcome.cycles);
}

#[test]
fn what_is_shown_is_read_again() {
    let numbers = up_to(100_000);
    assert_eq!(on_one_of(&format!("'{numbers}"), LARGE).values[0], numbers);
    let nested = "(".repeat(10_000) + &")".repeat(10_000);
    // (The brackets in the middle are (), which is shown as such.)
    assert_eq!(on_one_of(&format!("'{nested}"), LARGE).values[0], nested);
    // While a list in a list is shown, what follows it is in a register.
    let too_deep = "(".repeat(70_000) + &" 1)".repeat(70_000);
    assert_eq!(on_one_of(&format!("'{too_deep}"), LARGE).values[0], "error: no register is left");
}

#[test]
fn garbage_is_collected_while_a_program_runs() {
    // Each step makes a ring of two pairs: many more objects than there are slots.
    let program = "(define ring (lambda (a b) (if (set-car a b) 0 (set-car b a))))
        (define go (lambda (n) (if (eq n 0) 'done
            (if (ring (cons 0 n) (cons 0 n)) 0 (go (- n 1))))))
        (go 2000)";
    let outcome = on_two(program, "");
    assert_eq!(outcome.values[0], "done");
    assert!(outcome.cycles > 3, "{} cycles", outcome.cycles);
}

#[test]
fn a_full_heap_is_an_error() {
    let program = "(define grow (lambda (list) (grow (cons 1 list)))) (grow ())";
    assert_eq!(on_one(program), "error: the node has no slot left");
}

#[test]
fn nodes_send_lists_to_each_other() {
    let sums = include_str!("../sum.lisp");
    let squares = include_str!("../squares.lisp");
    assert_eq!(on_two(sums, squares).values[1], "2870");
}

#[test]
fn nodes_send_strings_to_each_other() {
    // The second node reads the first one's string, and sends back one of its own, with 2,000
    // characters: more than a window of letters carries.
    let first = r#"(send 1 (list "größer" "")) (string-length (receive))"#;
    let second = r#"(define texts (receive))
        (define times (lambda (n s) (if (eq n 0) "" (string-append s (times (- n 1) s)))))
        (send 0 (times 200 "0123456789"))
        (list (string-append (car texts) "!") (string? (car (cdr texts))) texts)"#;
    let outcome = on_two(first, second);
    assert_eq!(outcome.values, ["2000", r#"("größer!" t ("größer" ""))"#]);
}

#[test]
fn a_closure_runs_on_another_node() {
    let first = "(send 1 (lambda (x) (* x x))) (receive)";
    let second = "(define square (receive)) (send 0 (square 12))";
    assert_eq!(on_two(first, second).values[0], "144");
}

#[test]
fn a_ring_over_two_nodes_is_freed() {
    // Node 1 puts a pair of its own into node 0's pair, and the other way round.
    let first = "(define p (cons 1 ())) (send 1 p) (receive) (eq (car (cdr p)) 2)";
    let second =
        "(define q (receive)) (define r (cons 2 q)) (set-cdr q r) (send 0 ()) (car (cdr q))";
    let outcome = on_two(first, second);
    assert_eq!(outcome.values, ["t", "2"]);
}

// Makes garbage until cycles have freed what nothing keeps.
const LOSE: &str =
    "(define lose (lambda (n) (if (< n 1) () ((lambda (x) (lose (- n 1))) (list n n)))))";

#[test]
fn weak_pairs_keep_nothing_alive() {
    let lost = format!(
        "{LOSE} (define p (weak-cons (list 1 2) 'x)) (lose 3000) (list (weak-car p) (cdr p))"
    );
    assert_eq!(on_one(&lost), "(() x)");
    let kept = format!("{LOSE} (define l (list 1 2)) (define p (weak-cons l 'x)) (lose 3000) (list (weak-car p) (eq l (weak-car p)))");
    assert_eq!(on_one(&kept), "((1 2) t)");
    have_values(&[
        ("(weak-car (weak-cons 7 ()))", "7"),
        ("(weak-car (list 1))", "error: the value isn't a weak pair"),
        ("(weak-cons () 1)", "error: () isn't an object"),
    ]);
    let outcome = on_two("(send 1 (list 1)) 'sent", "(weak-cons (receive) ())");
    assert_eq!(outcome.values, ["sent", "error: the object is another node's"]);
    let outcome = on_two("(send 1 (weak-cons (list 5) ()))", "(weak-car (receive))");
    assert_eq!(outcome.values[1], "error: the weak pair is another node's");
}
