//! The directive: each stands on line 2 of a text that is good otherwise, in which s is one cell and
//! a and b are arrays.

use super::TextRow;

fn framed(line: &str) -> String {
    format!("integer s, a(4), b(4)\n{line}\ndo i = 1, 4\nend do\n")
}

/// With P.
const GOOD: &[(&str, usize)] = &[
    ("!$omp parallel do num_threads(1)", 1),
    ("!$omp parallel do num_threads(8)", 8),
    // READING 12
    ("!$OMP PARALLEL DO NUM_THREADS(2)", 2),
    ("!$Omp Parallel Do Num_Threads(2)", 2),
    // READING 10
    ("   !$omp   parallel   do   num_threads ( 2 )  ", 2),
    // READING 19
    (
        "!$omp parallel do num_threads(0000000000000000000000008)",
        8,
    ),
    // READING 18
    ("!$omp parallel do shared(a)num_threads(2)", 2),
    (
        "!$omp parallel do num_threads(3)shared(s)lastprivate(a)reduction(+:b)",
        3,
    ),
    (
        "!$omp parallel do reduction ( + : s , a ) num_threads(2)",
        2,
    ),
    (
        "!$omp parallel do shared(s, a) lastprivate(b) num_threads(4)",
        4,
    ),
    // READING 34
    (
        "!$omp parallel do shared(s) shared(a) num_threads(2) shared(b)",
        2,
    ),
    (
        "!$omp parallel do lastprivate(a) num_threads(2) lastprivate(s, b)",
        2,
    ),
    (
        "!$omp parallel do reduction(+:s) reduction(+:a) num_threads(2)",
        2,
    ),
    (
        "!$omp parallel do lastprivate(S) num_threads(2) SHARED(A)",
        2,
    ),
    // document 02, Point 3: anywhere among the clauses, blanks free, either case (P3.1)
    ("!$omp parallel do num_threads(2) schedule(static)", 2),
    ("!$omp parallel do schedule(static) num_threads(2)", 2),
    (
        "!$omp parallel do shared(s) lastprivate(a) schedule(static) num_threads(3) reduction(+:b)",
        3,
    ),
    (
        "!$omp parallel do shared(s) schedule(static) shared(a) num_threads(3)",
        3,
    ),
    ("!$OMP PARALLEL DO NUM_THREADS(2) SCHEDULE(STATIC)", 2),
    ("!$omp parallel do num_threads(2) Schedule(sTaTiC)", 2),
    (
        "!$omp parallel do num_threads(2)   schedule  (  static  )  ",
        2,
    ),
    ("!$omp parallel do schedule(static)num_threads(2)", 2),
    (
        "!$omp parallel do num_threads(4)schedule(static)shared(s)",
        4,
    ),
    // document 02, Point 5: in any order, repeated or not, lists that need not agree (P5.1)
    (
        "!$omp parallel do num_threads(2) firstprivate(s) lastprivate(s)",
        2,
    ),
    (
        "!$omp parallel do num_threads(2) lastprivate(s) firstprivate(s)",
        2,
    ),
    (
        "!$omp parallel do firstprivate(a) lastprivate(a) num_threads(2)",
        2,
    ),
    (
        "!$omp parallel do lastprivate(a) num_threads(2) firstprivate(a)",
        2,
    ),
    (
        "!$omp parallel do firstprivate(s) num_threads(3) lastprivate(a, s)",
        3,
    ),
    (
        "!$omp parallel do lastprivate(s, a, b) num_threads(3) firstprivate(b)",
        3,
    ),
    (
        "!$omp parallel do firstprivate(s, a) lastprivate(a, s) num_threads(3)",
        3,
    ),
    (
        "!$omp parallel do firstprivate(s) firstprivate(a) lastprivate(a, s) num_threads(3)",
        3,
    ),
    (
        "!$omp parallel do firstprivate(a, s) lastprivate(a) num_threads(3) lastprivate(s)",
        3,
    ),
    (
        "!$omp parallel do lastprivate(b) firstprivate(a, b) lastprivate(s, a) num_threads(3)",
        3,
    ),
    (
        "!$omp parallel do firstprivate(s) lastprivate(s) shared(a) reduction(+:b) num_threads(4)",
        4,
    ),
    (
        "!$omp parallel do firstprivate(s) schedule(static) lastprivate(s) num_threads(8)",
        8,
    ),
    (
        "!$OMP PARALLEL DO NUM_THREADS(2) FIRSTPRIVATE(S) LASTPRIVATE(S)",
        2,
    ),
    (
        "!$omp parallel do num_threads(2) FirstPrivate(S) lastprivate(s)",
        2,
    ),
    (
        "!$omp parallel do num_threads(2)  firstprivate  (  s  ,  a  )  lastprivate(a,s)",
        2,
    ),
    (
        "!$omp parallel do firstprivate(s)num_threads(2)lastprivate(s)",
        2,
    ),
    // document 02, Point 6: three operations, in any order, repeated or not (P6.1)
    ("!$omp parallel do num_threads(2) reduction(*:s)", 2),
    ("!$omp parallel do num_threads(2) reduction(max:s)", 2),
    ("!$omp parallel do reduction(*:s, a, b) num_threads(2)", 2),
    ("!$omp parallel do reduction(max:b, s) num_threads(2)", 2),
    (
        "!$omp parallel do reduction(+:s) reduction(*:a) reduction(max:b) num_threads(3)",
        3,
    ),
    (
        "!$omp parallel do reduction(max:b) num_threads(3) reduction(*:a) reduction(+:s)",
        3,
    ),
    (
        "!$omp parallel do reduction(*:s) reduction(*:a) num_threads(2) reduction(*:b)",
        2,
    ),
    (
        "!$omp parallel do reduction(max:a) reduction(max:s) num_threads(2)",
        2,
    ),
    ("!$OMP PARALLEL DO NUM_THREADS(2) REDUCTION(MAX:S)", 2),
    ("!$omp parallel do num_threads(2) Reduction(Max:S, a)", 2),
    (
        "!$omp parallel do num_threads(2)  reduction  (  *  :  s  ,  a  )  ",
        2,
    ),
    (
        "!$omp parallel do num_threads(2)  reduction ( max : s , a ) ",
        2,
    ),
    (
        "!$omp parallel do reduction(*:s)num_threads(4)reduction(max:a)",
        4,
    ),
    (
        "!$omp parallel do reduction(*:s) schedule(static) shared(a) num_threads(8)",
        8,
    ),
    (
        "!$omp parallel do reduction(max:s) firstprivate(a) lastprivate(a, b) num_threads(4)",
        4,
    ),
];

/// Number 2.
const BROKEN: &[&str] = &[
    // READING 26
    "!$omp parallel do",
    "!$omp parallel do shared(s)",
    "!$omp parallel do num_threads(2) num_threads(2)",
    "!$omp parallel do num_threads(2) shared(s) num_threads(3)",
    "!$omp parallel do num_threads(0) num_threads(2)",
    // READING 27
    "!$omp parallel do num_threads()",
    "!$omp parallel do num_threads(-1)",
    "!$omp parallel do num_threads(+2)",
    "!$omp parallel do num_threads(s)",
    "!$omp parallel do num_threads(1+1)",
    "!$omp parallel do num_threads((2))",
    "!$omp parallel do num_threads(1, 2)",
    "!$omp parallel do num_threads(1 2)",
    "!$omp parallel do num_threads(2.)",
    "!$omp parallel do num_threads 2",
    "!$omp parallel do num_threads",
    "!$omp parallel do num_threads(2",
    "!$omp parallel do num_threads(2))",
    "!$omp parallel do num_threads[2]",
    "!$omp parallel do num threads(2)",
    // READING 32
    "!$omp parallel do num_threads(2), shared(s)",
    "!$omp parallel do, num_threads(2)",
    "!$omp parallel do num_threads(2),",
    "!$omp parallel do num_threads(2) private(s)",
    "!$omp parallel do num_threads(2) default(none)",
    "!$omp parallel do num_threads(2) nowait",
    "!$omp parallel do num_threads(2) shared()",
    "!$omp parallel do num_threads(2) shared(s,)",
    "!$omp parallel do num_threads(2) shared(,s)",
    "!$omp parallel do num_threads(2) shared(s a)",
    "!$omp parallel do num_threads(2) shared(a(1))",
    "!$omp parallel do num_threads(2) shared(2)",
    "!$omp parallel do num_threads(2) shared s",
    "!$omp parallel do num_threads(2) shared",
    "!$omp parallel do num_threads(2) lastprivate()",
    "!$omp parallel do num_threads(2) lastprivate(+:s)",
    "!$omp parallel do num_threads(2) reduction(-:s)",
    "!$omp parallel do num_threads(2) reduction(s)",
    "!$omp parallel do num_threads(2) reduction(+ s)",
    "!$omp parallel do num_threads(2) reduction(:s)",
    "!$omp parallel do num_threads(2) reduction(+:)",
    "!$omp parallel do num_threads(2) reduction(+:a(1))",
    "!$omp parallel do num_threads(2) reduction(+:s:a)",
    // document 02, Point 6: any other operation (P6.1)
    "!$omp parallel do num_threads(2) reduction(/:s)",
    "!$omp parallel do num_threads(2) reduction(**:s)",
    "!$omp parallel do num_threads(2) reduction(min:s)",
    "!$omp parallel do num_threads(2) reduction(iand:s)",
    "!$omp parallel do num_threads(2) reduction(rdiv:s)",
    "!$omp parallel do num_threads(2) reduction(.and.:s)",
    "!$omp parallel do num_threads(2) reduction(maxi:s)",
    "!$omp parallel do num_threads(2) reduction(ma x:s)",
    "!$omp parallel do num_threads(2) reduction(ma:s)",
    "!$omp parallel do num_threads(2) reduction(max max:s)",
    "!$omp parallel do num_threads(2) reduction(+*:s)",
    "!$omp parallel do num_threads(2) reduction(+max:s)",
    "!$omp parallel do num_threads(2) reduction(+, *:s)",
    "!$omp parallel do num_threads(2) reduction((*):s)",
    "!$omp parallel do num_threads(2) reduction(*=:s)",
    "!$omp parallel do num_threads(2) reduction(==:s)",
    "!$omp parallel do num_threads(2) reduction(1:s)",
    "!$omp parallel do num_threads(2) reduction(s:s)",
    "!$omp parallel do num_threads(2) reduction(s:max)",
    // the form of the clause
    "!$omp parallel do num_threads(2) reduction(* s)",
    "!$omp parallel do num_threads(2) reduction(*s)",
    "!$omp parallel do num_threads(2) reduction(max s)",
    "!$omp parallel do num_threads(2) reduction(max, s)",
    "!$omp parallel do num_threads(2) reduction(max(s))",
    "!$omp parallel do num_threads(2) reduction(max)",
    "!$omp parallel do num_threads(2) reduction(*)",
    "!$omp parallel do num_threads(2) reduction(*:)",
    "!$omp parallel do num_threads(2) reduction(max:)",
    "!$omp parallel do num_threads(2) reduction(max::s)",
    "!$omp parallel do num_threads(2) reduction(max:s:a)",
    "!$omp parallel do num_threads(2) reduction(*:s, *:a)",
    "!$omp parallel do num_threads(2) reduction(*:s, max:a)",
    "!$omp parallel do num_threads(2) reduction(*:s,)",
    "!$omp parallel do num_threads(2) reduction(max:,s)",
    "!$omp parallel do num_threads(2) reduction(max:s a)",
    "!$omp parallel do num_threads(2) reduction(*:a(1))",
    "!$omp parallel do num_threads(2) reduction(max:a(1))",
    "!$omp parallel do num_threads(2) reduction(*:s",
    "!$omp parallel do num_threads(2) reduction(max:s))",
    "!$omp parallel do num_threads(2) reduction max:s",
    "!$omp parallel do num_threads(2) reduction*:s)",
    "!$omp parallel do num_threads(2) reduction[max:s]",
    "!$omp parallel do num_threads(2) max(s)",
    "!$omp parallel do num_threads(2) max(max:s)",
    "!$omp parallel do num_threads(2) shared(*:s)",
    "!$omp parallel do num_threads(2) lastprivate(max:s)",
    "!$omp parallel do num_threads(2) reduction(*:s), reduction(max:a)",
    "!$omp parallel do num_threads(max:2)",
    "!$omp parallel do reduction(max:s)",
    // max is no name (P6.2)
    "!$omp parallel do num_threads(2) shared(max)",
    "!$omp parallel do num_threads(2) shared(s, MAX)",
    "!$omp parallel do num_threads(2) lastprivate(max)",
    "!$omp parallel do num_threads(2) firstprivate(max) lastprivate(max)",
    "!$omp parallel do num_threads(2) reduction(+:max)",
    "!$omp parallel do num_threads(2) reduction(*:max)",
    "!$omp parallel do num_threads(2) reduction(max:max)",
    "!$omp parallel do num_threads(2) reduction(max:s, max)",
    // document 02, Point 3: "at most once" (P3.2)
    "!$omp parallel do num_threads(2) schedule(static) schedule(static)",
    "!$omp parallel do schedule(static) num_threads(2) schedule(static)",
    "!$omp parallel do num_threads(2) schedule(static) shared(s) SCHEDULE(STATIC)",
    "!$omp parallel do schedule(static) schedule(static) schedule(static) num_threads(2)",
    // every other inside (P3.3)
    "!$omp parallel do num_threads(2) schedule(dynamic)",
    "!$omp parallel do num_threads(2) schedule(guided)",
    "!$omp parallel do num_threads(2) schedule(auto)",
    "!$omp parallel do num_threads(2) schedule(runtime)",
    "!$omp parallel do num_threads(2) schedule(static, 1)",
    "!$omp parallel do num_threads(2) schedule(static,)",
    "!$omp parallel do num_threads(2) schedule(, static)",
    "!$omp parallel do num_threads(2) schedule(static 1)",
    "!$omp parallel do num_threads(2) schedule(static static)",
    "!$omp parallel do num_threads(2) schedule(static, static)",
    "!$omp parallel do num_threads(2) schedule()",
    "!$omp parallel do num_threads(2) schedule(s)",
    "!$omp parallel do num_threads(2) schedule(schedule)",
    "!$omp parallel do num_threads(2) schedule(statics)",
    "!$omp parallel do num_threads(2) schedule(stati)",
    "!$omp parallel do num_threads(2) schedule(sta tic)",
    "!$omp parallel do num_threads(2) schedule(static_)",
    "!$omp parallel do num_threads(2) schedule(1)",
    "!$omp parallel do num_threads(2) schedule((static))",
    "!$omp parallel do num_threads(2) schedule(static(1))",
    "!$omp parallel do num_threads(2) schedule(+:static)",
    "!$omp parallel do num_threads(2) schedule(monotonic:static)",
    // the word without brackets, and brackets without the word (P3.3)
    "!$omp parallel do num_threads(2) schedule",
    "!$omp parallel do schedule num_threads(2)",
    "!$omp parallel do num_threads(2) schedule static",
    "!$omp parallel do num_threads(2) schedule(static",
    "!$omp parallel do num_threads(2) schedule(",
    "!$omp parallel do num_threads(2) schedule static)",
    "!$omp parallel do num_threads(2) schedule(static))",
    "!$omp parallel do num_threads(2) schedule[static]",
    "!$omp parallel do num_threads(2) schedule=static",
    "!$omp parallel do num_threads(2) (static)",
    "!$omp parallel do num_threads(2) static",
    "!$omp parallel do num_threads(2) static(schedule)",
    "!$omp parallel do num_threads(2) schedules(static)",
    "!$omp parallel do num_threads(2) sched ule(static)",
    "!$omp parallel do num_threads(2), schedule(static)",
    "!$omp parallel do schedule(static), num_threads(2)",
    "!$omp parallel do num_threads(2) schedule(static) static",
    "!$omp parallel doschedule(static) num_threads(2)",
    "!$omp schedule(static) parallel do num_threads(2)",
    // document 02, Point 5: a list as the others (P5.1)
    "!$omp parallel do num_threads(2) lastprivate(s) firstprivate",
    "!$omp parallel do num_threads(2) firstprivate lastprivate(s)",
    "!$omp parallel do num_threads(2) lastprivate(s) firstprivate()",
    "!$omp parallel do num_threads(2) lastprivate(s) firstprivate(",
    "!$omp parallel do num_threads(2) lastprivate(s) firstprivate(s",
    "!$omp parallel do firstprivate(s lastprivate(s) num_threads(2)",
    "!$omp parallel do num_threads(2) lastprivate(s) firstprivate s",
    "!$omp parallel do num_threads(2) lastprivate(s) firstprivate s)",
    "!$omp parallel do num_threads(2) lastprivate(s) firstprivate(s))",
    "!$omp parallel do num_threads(2) lastprivate(s) firstprivate((s))",
    "!$omp parallel do num_threads(2) lastprivate(s) firstprivate[s]",
    "!$omp parallel do num_threads(2) lastprivate(s) firstprivate(s,)",
    "!$omp parallel do num_threads(2) lastprivate(s) firstprivate(,s)",
    "!$omp parallel do num_threads(2) lastprivate(s, a) firstprivate(s,,a)",
    "!$omp parallel do num_threads(2) lastprivate(s, a) firstprivate(s a)",
    "!$omp parallel do num_threads(2) lastprivate(s) firstprivate(+:s)",
    "!$omp parallel do num_threads(2) lastprivate(s) firstprivate(:s)",
    "!$omp parallel do num_threads(2) lastprivate(s) firstprivate(-s)",
    "!$omp parallel do num_threads(2) lastprivate(a) firstprivate(a(1))",
    "!$omp parallel do num_threads(2) lastprivate(s) firstprivate(2)",
    "!$omp parallel do num_threads(2) lastprivate(s) firstprivate(do)",
    "!$omp parallel do num_threads(2) lastprivate(s) firstprivate(s, rdiv)",
    "!$omp parallel do num_threads(2) firstprivate(abcdefghijklmnopqrstuvwxyz123456)",
    "!$omp parallel do num_threads(2) lastprivate(s) first private(s)",
    "!$omp parallel do num_threads(2) lastprivate(s) first_private(s)",
    "!$omp parallel do num_threads(2) lastprivate(s) firstprivates(s)",
    "!$omp parallel do num_threads(2) lastprivate(s) firstprivat(s)",
    "!$omp parallel do num_threads(2) firstprivate(s), lastprivate(s)",
    "!$omp parallel do num_threads(2) firstprivate(s) + lastprivate(s)",
    "!$omp parallel do num_threads(2) firstprivate lastprivate(s)(s)",
    "!$omp parallel do num_threads(2) firstprivate(lastprivate(s))",
    "!$omp parallel do num_threads(2) firstprivate(s, lastprivate(s))",
    "!$omp parallel dofirstprivate(s) lastprivate(s) num_threads(2)",
    "!$omp parallel do firstprivate(s) lastprivate(s)",
    "!$omp parallel do num_threads(2) firstprivate(s) lastprivate(s) num_threads(2)",
    // READING 26
    "!$omp parallel do schedule(static)",
    "!$omp parallel do num_threads(2) schedule(static) num_threads(2)",
    // READING 18
    "!$omp paralleldo num_threads(2)",
    "!$omp parallel do_num_threads(2)",
    "!$omp parallel donum_threads(2)",
    "!$omp parallel num_threads(2)",
    "!$omp do num_threads(2)",
    "!$omp parallel do simd num_threads(2)",
    "!$omp do parallel num_threads(2)",
    "!$omp",
    "!$omp ",
    // READING 8
    "!$ompx",
    "!$ompparallel do num_threads(2)",
    "!$omp(parallel do num_threads(2)",
    "  !$OMPPARALLEL DO NUM_THREADS(2)",
    "!$omp!",
    "!$omp ! parallel do num_threads(2)",
    "!$omp\tparallel do num_threads(2)",
    "!$omp parallel do num_threads(2) ! x",
    "!$omp parallel do num_threads(2) &",
    "!$omp !$omp parallel do num_threads(2)",
    // READING 11
    "!$omp end parallel do",
    // READING 20, 21
    "!$omp parallel do num_threads(2) shared(do)",
    "!$omp parallel do num_threads(2) shared(rdiv)",
    "!$omp parallel do num_threads(2) reduction(+:if)",
    "!$omp parallel do num_threads(2) shared(abcdefghijklmnopqrstuvwxyz123456)",
    // 2 before 3 and 4 (READING 23)
    "!$omp parallel do shared(t)",
    "!$omp parallel do num_threads(9",
    "!$omp parallel do num_threads(9) shared(s, s) shared()",
    "!$omp parallel do num_threads(0) shared(t) x",
    "!$omp parallel do num_threads(2) schedule(static) shared(t) schedule(static)",
    "!$omp parallel do num_threads(2) shared(s, s) schedule(dynamic)",
    "!$omp parallel do num_threads(9) schedule(static) schedule(static)",
    "!$omp parallel do schedule(static, 1) num_threads(0)",
    "!$omp parallel do schedule(2147483648) num_threads(2)",
    "!$omp parallel do shared(t) schedule(static)",
    "!$omp parallel do firstprivate(s)",
    "!$omp parallel do num_threads(2) firstprivate(s) shared()",
    "!$omp parallel do firstprivate() firstprivate(t, t) num_threads(2)",
    "!$omp parallel do num_threads(2) firstprivate(s, s) lastprivate(s) firstprivate(s,)",
    "!$omp parallel do num_threads(9) firstprivate(s",
    "!$omp parallel do num_threads(9) firstprivate() lastprivate(s)",
    "!$omp parallel do num_threads(0) firstprivate(s) lastprivate(s) schedule(dynamic)",
    "!$omp parallel do schedule(static) firstprivate(s) schedule(static) num_threads(2)",
    "!$omp parallel do num_threads(2) reduction(*:s) reduction(max:s) reduction(-:a)",
    "!$omp parallel do num_threads(2) reduction(max:t) reduction(min:s)",
    "!$omp parallel do num_threads(9) reduction(*:s, s) reduction(max:)",
    "!$omp parallel do reduction(*:t)",
];

/// Number 3.
const MISNAMED: &[&str] = &[
    "!$omp parallel do num_threads(2) shared(t)",
    "!$omp parallel do num_threads(2) lastprivate(t)",
    "!$omp parallel do num_threads(2) reduction(+:s, t)",
    // READING 33
    "!$omp parallel do num_threads(2) shared(i)",
    "!$omp parallel do num_threads(2) lastprivate(i)",
    "!$omp parallel do num_threads(2) shared(s, s)",
    "!$omp parallel do num_threads(2) shared(s, a, S)",
    "!$omp parallel do num_threads(2) reduction(+:s, s)",
    "!$omp parallel do shared(s) num_threads(2) shared(s)",
    "!$omp parallel do num_threads(2) lastprivate(s) lastprivate(s)",
    "!$omp parallel do num_threads(2) shared(s) lastprivate(s)",
    "!$omp parallel do num_threads(2) lastprivate(a, s) reduction(+:b, s)",
    "!$omp parallel do num_threads(2) shared(num_threads)",
    "!$omp parallel do num_threads(2) shared(shared)",
    // 31 characters
    "!$omp parallel do num_threads(2) shared(abcdefghijklmnopqrstuvwxyz12345)",
    // 3 before 4
    "!$omp parallel do num_threads(9) shared(t)",
    "!$omp parallel do shared(s, s) num_threads(0)",
    "!$omp parallel do num_threads(2147483648) shared(t)",
    // with the clause
    "!$omp parallel do num_threads(2) schedule(static) shared(t)",
    "!$omp parallel do shared(s) schedule(static) lastprivate(s) num_threads(2)",
    "!$omp parallel do schedule(static) num_threads(9) shared(t)",
    "!$omp parallel do shared(s, s) num_threads(0) schedule(static)",
    // its words stay free as names, here unknown ones (P3.4)
    "!$omp parallel do num_threads(2) shared(schedule)",
    "!$omp parallel do num_threads(2) lastprivate(static) schedule(static)",
    "!$omp parallel do num_threads(2) reduction(+:s, static)",
    // document 02, Point 5: in firstprivate without lastprivate (P5.2)
    "!$omp parallel do num_threads(2) firstprivate(s)",
    "!$omp parallel do firstprivate(s) num_threads(2)",
    "!$omp parallel do num_threads(2) firstprivate(a)",
    "!$omp parallel do num_threads(2) FIRSTPRIVATE(S)",
    "!$omp parallel do num_threads(2) firstprivate(s) lastprivate(a)",
    "!$omp parallel do num_threads(2) firstprivate(s, a) lastprivate(a)",
    "!$omp parallel do num_threads(2) lastprivate(s, b) firstprivate(b, a, s)",
    "!$omp parallel do num_threads(2) firstprivate(s) schedule(static)",
    // with another clause than lastprivate
    "!$omp parallel do num_threads(2) firstprivate(s) shared(s)",
    "!$omp parallel do num_threads(2) shared(a, s) firstprivate(s)",
    "!$omp parallel do num_threads(2) firstprivate(s) reduction(+:s)",
    "!$omp parallel do num_threads(2) reduction(+:s) lastprivate(a) firstprivate(a, s)",
    // twice in firstprivate, in one list or two
    "!$omp parallel do num_threads(2) firstprivate(s, s) lastprivate(s)",
    "!$omp parallel do num_threads(2) lastprivate(s, a) firstprivate(s, a, S)",
    "!$omp parallel do num_threads(2) firstprivate(s) firstprivate(s) lastprivate(s)",
    "!$omp parallel do num_threads(2) firstprivate(s) lastprivate(s) firstprivate(s)",
    "!$omp parallel do num_threads(2) lastprivate(a, s) firstprivate(a) firstprivate(s, a)",
    "!$omp parallel do num_threads(2) firstprivate(s, s)",
    "!$omp parallel do num_threads(2) firstprivate(s) firstprivate(s)",
    // twice in lastprivate
    "!$omp parallel do num_threads(2) firstprivate(s) lastprivate(s, s)",
    "!$omp parallel do num_threads(2) firstprivate(s) lastprivate(s) lastprivate(s)",
    "!$omp parallel do num_threads(2) lastprivate(s) firstprivate(s) lastprivate(a, s)",
    "!$omp parallel do num_threads(2) firstprivate(s, s) lastprivate(s, s)",
    "!$omp parallel do firstprivate(s) lastprivate(s) firstprivate(s) lastprivate(s) num_threads(2)",
    // the pair and a third clause
    "!$omp parallel do num_threads(2) firstprivate(s) lastprivate(s) shared(s)",
    "!$omp parallel do num_threads(2) shared(s) firstprivate(s) lastprivate(s)",
    "!$omp parallel do num_threads(2) lastprivate(s) shared(a, s) firstprivate(s)",
    "!$omp parallel do num_threads(2) firstprivate(s) lastprivate(s) reduction(+:s)",
    "!$omp parallel do num_threads(2) reduction(+:b, s) lastprivate(s) firstprivate(s)",
    "!$omp parallel do num_threads(2) firstprivate(s) lastprivate(s) shared(s) reduction(+:s)",
    // unknown, v and the clause's word, which stays free as a name (P5.10)
    "!$omp parallel do num_threads(2) firstprivate(t) lastprivate(t)",
    "!$omp parallel do num_threads(2) firstprivate(t)",
    "!$omp parallel do num_threads(2) firstprivate(s, t) lastprivate(s)",
    "!$omp parallel do num_threads(2) firstprivate(s) lastprivate(s, t)",
    "!$omp parallel do num_threads(2) firstprivate(i) lastprivate(i)",
    "!$omp parallel do num_threads(2) firstprivate(s, i) lastprivate(s)",
    "!$omp parallel do num_threads(2) firstprivate(firstprivate) lastprivate(firstprivate)",
    "!$omp parallel do num_threads(2) lastprivate(firstprivate)",
    "!$omp parallel do num_threads(2) firstprivate(lastprivate, s) lastprivate(s)",
    // 31 characters
    "!$omp parallel do num_threads(2) firstprivate(abcdefghijklmnopqrstuvwxyz12345)",
    // 3 before 4
    "!$omp parallel do num_threads(9) firstprivate(s)",
    "!$omp parallel do firstprivate(s, s) lastprivate(s) num_threads(0)",
    "!$omp parallel do num_threads(2147483648) firstprivate(s) shared(s)",
    // document 02, Point 6: unknown, v and words that only begin like max
    "!$omp parallel do num_threads(2) reduction(*:t)",
    "!$omp parallel do num_threads(2) reduction(max:s, t)",
    "!$omp parallel do num_threads(2) reduction(*:i)",
    "!$omp parallel do num_threads(2) reduction(max:i)",
    "!$omp parallel do num_threads(2) reduction(max:max1)",
    "!$omp parallel do num_threads(2) reduction(*:min)",
    // twice in one clause, in two of one operation and in two of two (P6.1)
    "!$omp parallel do num_threads(2) reduction(*:s, s)",
    "!$omp parallel do num_threads(2) reduction(max:s, a, S)",
    "!$omp parallel do num_threads(2) reduction(*:s) reduction(*:s)",
    "!$omp parallel do num_threads(2) reduction(max:s) reduction(max:s)",
    "!$omp parallel do num_threads(2) reduction(+:s) reduction(+:s)",
    "!$omp parallel do num_threads(2) reduction(+:s) reduction(*:s)",
    "!$omp parallel do num_threads(2) reduction(*:s) reduction(+:s)",
    "!$omp parallel do num_threads(2) reduction(+:s) reduction(max:s)",
    "!$omp parallel do num_threads(2) reduction(max:s) reduction(+:s)",
    "!$omp parallel do num_threads(2) reduction(*:s) reduction(max:s)",
    "!$omp parallel do num_threads(2) reduction(max:s) reduction(*:s)",
    "!$omp parallel do num_threads(2) reduction(*:a, s) reduction(+:a) reduction(max:b)",
    "!$omp parallel do reduction(*:a, s) num_threads(2) reduction(max:b, s)",
    "!$omp parallel do reduction(+:s) num_threads(2) reduction(*:s) reduction(max:s)",
    "!$omp parallel do num_threads(2) reduction(*:s) schedule(static) reduction(max:s)",
    // with another clause
    "!$omp parallel do num_threads(2) shared(s) reduction(*:s)",
    "!$omp parallel do num_threads(2) reduction(max:s) shared(a, s)",
    "!$omp parallel do num_threads(2) lastprivate(s) reduction(max:s)",
    "!$omp parallel do num_threads(2) reduction(*:s) firstprivate(s)",
    "!$omp parallel do num_threads(2) reduction(max:s) firstprivate(s) lastprivate(s)",
    // 3 before 4
    "!$omp parallel do num_threads(9) reduction(*:s) reduction(max:s)",
    "!$omp parallel do num_threads(0) reduction(max:t)",
];

/// Number 4.
const BEYOND: &[&str] = &[
    "!$omp parallel do num_threads(0)",
    "!$omp parallel do num_threads(000)",
    "!$omp parallel do num_threads(9)",
    "!$omp parallel do num_threads(0009) shared(s)",
    "!$omp parallel do num_threads(2147483648)",
    "!$omp parallel do num_threads(4294967298)",
    "!$omp parallel do num_threads(18446744073709551618)",
    "!$omp parallel do num_threads(99999999999999999999999999)",
    // with the clause
    "!$omp parallel do num_threads(9) schedule(static)",
    "!$omp parallel do schedule(static) num_threads(0)",
    // with the pair of Point 5
    "!$omp parallel do num_threads(9) firstprivate(s) lastprivate(s)",
    "!$omp parallel do lastprivate(s, a) num_threads(0) firstprivate(a)",
    "!$omp parallel do firstprivate(s) lastprivate(s) num_threads(2147483648)",
    // with the operations of Point 6
    "!$omp parallel do num_threads(9) reduction(*:s)",
    "!$omp parallel do reduction(max:s) reduction(+:a) num_threads(0)",
];

/// All rows.
pub fn rows() -> Vec<TextRow> {
    let bad = |lines: &[&str], number: u32| -> Vec<TextRow> {
        let row = |line: &&str| TextRow::bad(line, framed(line), number, 2);
        lines.iter().map(row).collect()
    };
    let mut rows: Vec<TextRow> = GOOD
        .iter()
        .map(|(line, processors)| TextRow::good(line, framed(line), 9, *processors))
        .collect();
    rows.extend(bad(BROKEN, 2));
    rows.extend(bad(MISNAMED, 3));
    rows.extend(bad(BEYOND, 4));
    rows
}
