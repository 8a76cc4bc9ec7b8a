//! Whole texts: the order of lines, skipped lines, endings, unfinished texts, bytes, and which bad
//! line counts.

use super::TextRow;

/// A name for the row, the text, and N and P.
const GOOD: &[(&str, &str, usize, usize)] = &[
    (
        "the example of the program",
        "integer a(4), k(4)\ndata k /2, 1, 4, 3/\n!$omp parallel do num_threads(2)\ndo i = 1, 4\n\
         a(k(i)) = 10 * i\nend do\n",
        8,
        2,
    ),
    (
        "no last newline",
        "integer a\n!$omp parallel do num_threads(1)\ndo i = 1, 4\nend do",
        1,
        1,
    ),
    (
        "joined endings and upper case",
        "INTEGER A\n!$OMP PARALLEL DO NUM_THREADS(1)\nDO I = 1, 4\nIF (A == 1) THEN\nENDIF\nENDDO",
        1,
        1,
    ),
    (
        "blanks inside endings",
        "integer a\n!$omp parallel do num_threads(1)\ndo i = 1, 4\nif (a == 1) then\n end   if \n\
         \x20end   do ",
        1,
        1,
    ),
    (
        "closing directive",
        "integer a\n!$omp parallel do num_threads(1)\ndo i = 1, 4\nend do\n!$omp end parallel do\n",
        1,
        1,
    ),
    (
        "closing directive with blanks and upper case, no last newline (READING 9)",
        "integer a\n!$omp parallel do num_threads(1)\ndo i = 1, 4\nend do\n \
         \x20!$OMP   END   Parallel   DO  ",
        1,
        1,
    ),
    (
        "skipped lines everywhere (READING 14)",
        "\n! x\ninteger a\n \n!$om\ninteger b\n!\ndata a /1/\n\ndata b /1/\n! x\n\
         !$omp parallel do num_threads(3)\n\n! x\ndo i = 1, 4\n!!\nif (a == 1) then\n! y\nelse\n\n\
         end if\n   !\nend do\n! x\n\n!$omp end parallel do\n! z\n\n   \n",
        2,
        3,
    ),
    (
        "several integer and data lines",
        "integer a\ninteger b(2), c\ninteger d(3)\ndata d /3*1/\ndata a /1/\n\
         !$omp parallel do num_threads(1)\ndo i = 1, 4\nend do\n",
        7,
        1,
    ),
    (
        "if with else, nested",
        "integer a\n!$omp parallel do num_threads(1)\ndo i = 1, 4\nif (a == 1) then\n\
         if (a == 2) then\na = 1\nelse\na = 2\nend if\nelse\nif (a == 3) then\nend if\nend if\n\
         end do\n",
        1,
        1,
    ),
    (
        "words that are no reserved ones as names (READING 22)",
        "integer shared, num_threads(2), parallel\n\
         !$omp parallel do shared(shared) num_threads(2) lastprivate(num_threads)\n\
         do omp = 1, 2\nnum_threads(omp) = shared + parallel\nend do\n",
        4,
        2,
    ),
    (
        "schedule and static as names, and the clause (P3.4)",
        "integer schedule, static(4)\ndata schedule /1/\ndata static /4*2/\n\
         !$omp parallel do schedule(static) lastprivate(schedule) num_threads(2) shared(static)\n\
         do i = 1, 4\nstatic(i) = schedule\nschedule = static(schedule)\nend do\n",
        5,
        2,
    ),
    (
        "schedule and static as names, without the clause (P3.4)",
        "integer static\n!$omp parallel do num_threads(3) reduction(+:static)\ndo schedule = 1, 4\n\
         if (schedule == static) then\nstatic = static + schedule\nend if\nend do\n",
        1,
        3,
    ),
    (
        "firstprivate as a name, in both clauses (P5.10)",
        "integer firstprivate, lastprivate(4)\ndata firstprivate /1/\n\
         !$omp parallel do firstprivate(firstprivate, lastprivate) num_threads(2) \
         lastprivate(lastprivate, firstprivate)\n\
         do i = 1, 4\nlastprivate(i) = firstprivate\nfirstprivate = lastprivate(firstprivate)\nend do\n",
        5,
        2,
    ),
    (
        "firstprivate as a name, in other clauses and none (P5.10)",
        "integer firstprivate, a\n!$omp parallel do num_threads(3) reduction(+:firstprivate)\n\
         do i = 1, 4\nfirstprivate = firstprivate + a\nend do\n",
        2,
        3,
    ),
    (
        "firstprivate as v (P5.10)",
        "integer a\n!$omp parallel do num_threads(3) firstprivate(a) lastprivate(a)\n\
         do firstprivate = 1, 4\nif (firstprivate == 4) then\na = firstprivate\nend if\nend do\n",
        1,
        3,
    ),
    (
        "16 names in both clauses",
        "integer a,b,c,d,e,f,g,h,i,j,k,l,m,n,o,p\n!$omp parallel do num_threads(8) \
         firstprivate(a,b,c,d,e,f,g,h,i,j,k,l,m,n,o,p) lastprivate(p,o,n,m,l,k,j,i,h,g,f,e,d,c,b,a)\n\
         do v = 1, 4\nend do\n",
        16,
        8,
    ),
    (
        "all three operations, and max in every place of a factor (document 02, Point 6)",
        "integer s, p, m, a(4)\ndata p /1/\n\
         !$omp parallel do reduction(+:s) num_threads(2) reduction(*:p) reduction(max:m)\ndo i = 1, 4\n\
         s = s + max(a(max(i, 1)), -i)\np = p*max(i, 2)*(max(1, 2) - 3)\nm = max(m, max(a(i), i))\n\
         if (max(i, 2) == 2 + max(0, 0)) then\na(max(1, i)) = -max(1, 2)/max(3, 4)\nend if\nend do\n",
        7,
        2,
    ),
    (
        "16 names in the clauses of three operations",
        "integer a,b,c,d,e,f,g,h,i,j,k,l,m,n,o,p\n!$omp parallel do num_threads(8) \
         reduction(*:a,b,c,d,e) reduction(max:p,o,n,m,l) reduction(+:f,g,h,i,j,k)\n\
         do v = 1, 4\nend do\n",
        16,
        8,
    ),
    (
        "names that only begin like max",
        "integer max1, maxi(2)\ndata maxi /2*1/\n!$omp parallel do num_threads(1) reduction(max:max1)\n\
         do max_ = 1, 4\nmax1 = max(max1, maxi(1) + max_)\nend do\n",
        3,
        1,
    ),
    (
        "16 names and a v (READING 29)",
        "integer a,b,c,d,e,f,g,h\ninteger i,j,k,l,m,n,o,p\n!$omp parallel do num_threads(1)\n\
         do v = 1, 4\nend do\n",
        16,
        1,
    ),
    (
        "N of 4,096 in two lines",
        "integer a(4000)\ninteger b(96)\n!$omp parallel do num_threads(1)\ndo v = 1, 4\nend do\n",
        4096,
        1,
    ),
    (
        "an array of one cell takes a subscript (READING 31)",
        "integer a(1)\n!$omp parallel do num_threads(1)\ndo v = 1, 4\na(1) = 1\nend do\n",
        1,
        1,
    ),
];

/// A name for the row, the text, the number and the line.
const BAD: &[(&str, &str, u32, u32)] = &[
    // Lines and unfinished texts (READING 1, 2, 3)
    ("empty text", "", 2, 1),
    ("one newline", "\n", 2, 1),
    ("two newlines", "\n\n", 2, 2),
    ("newline and blank", "\n ", 2, 2),
    ("one blank", " ", 2, 1),
    ("a comment", "!", 2, 1),
    ("comments", "! a\n! b\n", 2, 2),
    ("comments, no last newline", "! a\n! b\n!", 2, 3),
    ("unfinished after integer", "integer a", 2, 1),
    ("unfinished after integer, newline", "integer a\n", 2, 1),
    ("unfinished, blank line last", "integer a\n\n", 2, 2),
    ("unfinished, comment and blank line last", "integer a\n! x\n\n", 2, 3),
    ("unfinished, many newlines last", "integer a\n\n\n\n\n", 2, 5),
    ("unfinished and a name twice", "integer a, a", 2, 1),
    ("unfinished and a name twice, newline", "integer a, a\n", 2, 1),
    ("a name twice, then unfinished", "integer a, a\n\n", 3, 1),
    ("a name twice, then a comment", "integer a, a\n!", 3, 1),
    ("unfinished and over a limit", "integer a(0)\n", 2, 1),
    ("over a limit, then unfinished", "integer a(0)\n\n", 4, 1),
    ("unfinished after data", "integer a\ndata a /1/\n", 2, 2),
    ("unfinished and data for an unknown name", "integer a\ndata b /1/", 2, 2),
    (
        "unfinished after the directive",
        "integer a\n!$omp parallel do num_threads(1)\n",
        2,
        2,
    ),
    (
        "unfinished and P over its limit",
        "integer a\n!$omp parallel do num_threads(9)",
        2,
        2,
    ),
    (
        "unfinished after do",
        "integer a\n!$omp parallel do num_threads(1)\ndo i = 1, 4",
        2,
        3,
    ),
    (
        "unfinished and v declared",
        "integer a\n!$omp parallel do num_threads(1)\ndo a = 1, 4\n",
        2,
        3,
    ),
    (
        "unfinished after a statement",
        "integer a\n!$omp parallel do num_threads(1)\ndo i = 1, 4\na = 1\n",
        2,
        4,
    ),
    (
        "unfinished and an unknown name",
        "integer a\n!$omp parallel do num_threads(1)\ndo i = 1, 4\nb = 1\n",
        2,
        4,
    ),
    (
        "an unknown name, then unfinished",
        "integer a\n!$omp parallel do num_threads(1)\ndo i = 1, 4\nb = 1\n\n",
        3,
        4,
    ),
    (
        "unfinished inside if",
        "integer a\n!$omp parallel do num_threads(1)\ndo i = 1, 4\nif (a == 1) then\n! x\n",
        2,
        5,
    ),
    (
        "unfinished after end if",
        "integer a\n!$omp parallel do num_threads(1)\ndo i = 1, 4\nif (a == 1) then\nend if",
        2,
        5,
    ),
    // Order (READING 11, 24, 25)
    ("data first", "data a /1/\ninteger a\n", 2, 1),
    (
        "integer missing",
        "! x\n\n!$omp parallel do num_threads(1)\ndo i = 1, 4\nend do\n",
        2,
        3,
    ),
    ("do first", "do i = 1, 4\nend do\n", 2, 1),
    ("a statement first", "\na = 1\ninteger a\n", 2, 2),
    (
        "integer after data",
        "integer a\ndata a /1/\ninteger b\n!$omp parallel do num_threads(1)\ndo i = 1, 4\nend do\n",
        2,
        3,
    ),
    (
        "directive before integer",
        "!$omp parallel do num_threads(1)\ninteger a\ndo i = 1, 4\nend do\n",
        2,
        1,
    ),
    (
        "directive between integer lines",
        "integer a\n!$omp parallel do num_threads(1)\ninteger b\ndo i = 1, 4\nend do\n",
        2,
        3,
    ),
    (
        "data after the directive",
        "integer a\n!$omp parallel do num_threads(1)\ndata a /1/\ndo i = 1, 4\nend do\n",
        2,
        3,
    ),
    (
        "two directives",
        "integer a\n!$omp parallel do num_threads(1)\n!$omp parallel do num_threads(1)\n\
         do i = 1, 4\nend do\n",
        2,
        3,
    ),
    ("directive missing", "integer a\ndo i = 1, 4\nend do\n", 2, 2),
    (
        "directive missing, v declared",
        "integer a\ndata a /1/\ndo a = 1, 4\nend do\n",
        2,
        3,
    ),
    (
        "a comment for a directive (READING 13)",
        "integer a\n! $omp parallel do num_threads(1)\ndo i = 1, 4\nend do\n",
        2,
        3,
    ),
    (
        "do missing",
        "integer a\n!$omp parallel do num_threads(1)\na = 1\nend do\n",
        2,
        3,
    ),
    (
        "do missing, end do",
        "integer a\n!$omp parallel do num_threads(1)\nend do\n",
        2,
        3,
    ),
    (
        "closing directive before end do",
        "integer a\n!$omp parallel do num_threads(1)\ndo i = 1, 4\n!$omp end parallel do\nend do\n",
        2,
        4,
    ),
    (
        "closing directive twice",
        "integer a\n!$omp parallel do num_threads(1)\ndo i = 1, 4\nend do\n!$omp end parallel do\n\
         !$omp end parallel do\n",
        2,
        6,
    ),
    (
        "closing directive without its blank (READING 9)",
        "integer a\n!$omp parallel do num_threads(1)\ndo i = 1, 4\nend do\n!$ompend parallel do\n",
        2,
        5,
    ),
    (
        "closing directive with a clause",
        "integer a\n!$omp parallel do num_threads(1)\ndo i = 1, 4\nend do\n\
         !$omp end parallel do num_threads(1)\n",
        2,
        5,
    ),
    (
        "closing directive with Point 3's clause",
        "integer a\n!$omp parallel do num_threads(1) schedule(static)\ndo i = 1, 4\nend do\n\
         !$omp end parallel do schedule(static)\n",
        2,
        5,
    ),
    (
        "unfinished and Point 3's clause twice",
        "integer a\n!$omp parallel do num_threads(1) schedule(static) schedule(static)\n",
        2,
        2,
    ),
    (
        "Point 3's clause on a line of its own",
        "integer a\n!$omp parallel do num_threads(1)\n!$omp schedule(static)\ndo i = 1, 4\nend do\n",
        2,
        3,
    ),
    (
        "closing directive with Point 5's clauses",
        "integer a\n!$omp parallel do num_threads(1) firstprivate(a) lastprivate(a)\ndo i = 1, 4\nend do\n\
         !$omp end parallel do firstprivate(a) lastprivate(a)\n",
        2,
        5,
    ),
    (
        "firstprivate alone, and unfinished",
        "integer a\n!$omp parallel do num_threads(1) firstprivate(a)\n",
        2,
        2,
    ),
    (
        "firstprivate alone: at the directive, whatever follows (P5.2)",
        "integer a\n\n!$omp parallel do num_threads(1) firstprivate(a)\ndo a = 1\nend do\n",
        3,
        3,
    ),
    (
        "firstprivate alone, after a bad line",
        "integer a, b(0)\n!$omp parallel do num_threads(1) firstprivate(a)\ndo i = 1, 4\nend do\n",
        4,
        1,
    ),
    (
        "Point 5's clauses in two directives",
        "integer a\n!$omp parallel do num_threads(1) lastprivate(a)\n\
         !$omp parallel do num_threads(1) firstprivate(a)\ndo i = 1, 4\nend do\n",
        2,
        3,
    ),
    (
        "firstprivate on a line of its own",
        "integer a\n!$omp parallel do num_threads(1) lastprivate(a)\n!$omp firstprivate(a)\n\
         do i = 1, 4\nend do\n",
        2,
        3,
    ),
    (
        "max declared: at its line, though every use follows (P6.2)",
        "integer a\ninteger b, max(2)\n!$omp parallel do num_threads(1)\ndo i = 1, 4\n\
         max(1) = max(2)\nend do\n",
        2,
        2,
    ),
    (
        "max given data: at its line",
        "integer a\ndata a /1/\ndata max /1/\n!$omp parallel do num_threads(1)\ndo i = 1, 4\nend do\n",
        2,
        3,
    ),
    (
        "max as v: at the do line",
        "integer a\n!$omp parallel do num_threads(1)\ndo max = 1, 4\na = max\nend do\n",
        2,
        3,
    ),
    (
        "max read: at its line",
        "integer a\n!$omp parallel do num_threads(1)\ndo i = 1, 4\na = 1\na = a + max\nend do\n",
        2,
        5,
    ),
    (
        "max assigned: at its line",
        "integer a\n!$omp parallel do num_threads(1)\ndo i = 1, 4\na = 1\nmax = a\nend do\n",
        2,
        5,
    ),
    (
        "a name in two reduction clauses: at the directive, whatever follows (P6.1)",
        "integer a\n\n!$omp parallel do num_threads(1) reduction(*:a) reduction(max:a)\ndo a = 1\nend do\n",
        3,
        3,
    ),
    (
        "a name in two reduction clauses, and unfinished",
        "integer a\n!$omp parallel do num_threads(1) reduction(*:a) reduction(max:a)\n",
        2,
        2,
    ),
    (
        "the operations in two directives",
        "integer a, b\n!$omp parallel do num_threads(1) reduction(*:a)\n\
         !$omp parallel do num_threads(1) reduction(max:b)\ndo i = 1, 4\nend do\n",
        2,
        3,
    ),
    (
        "closing directive with Point 6's clause",
        "integer a\n!$omp parallel do num_threads(1) reduction(*:a)\ndo i = 1, 4\nend do\n\
         !$omp end parallel do reduction(*:a)\n",
        2,
        5,
    ),
    (
        "closing directive run together (READING 18)",
        "integer a\n!$omp parallel do num_threads(1)\ndo i = 1, 4\nend do\n!$omp endparallel do\n",
        2,
        5,
    ),
    (
        "closing directive run together later",
        "integer a\n!$omp parallel do num_threads(1)\ndo i = 1, 4\nend do\n!$omp end paralleldo\n",
        2,
        5,
    ),
    (
        "closing directive of another kind",
        "integer a\n!$omp parallel do num_threads(1)\ndo i = 1, 4\nend do\n!$omp end do\n",
        2,
        5,
    ),
    (
        "closing directive with enddo",
        "integer a\n!$omp parallel do num_threads(1)\ndo i = 1, 4\nend do\n!$omp end parallel enddo\n",
        2,
        5,
    ),
    (
        "the directive again after end do",
        "integer a\n!$omp parallel do num_threads(1)\ndo i = 1, 4\nend do\n\
         !$omp parallel do num_threads(1)\n",
        2,
        5,
    ),
    (
        "the five bytes after end do (READING 8)",
        "integer a\n!$omp parallel do num_threads(1)\ndo i = 1, 4\nend do\n\n!$omp\n",
        2,
        6,
    ),
    (
        "a statement after end do",
        "integer a\n!$omp parallel do num_threads(1)\ndo i = 1, 4\nend do\na = 1\n",
        2,
        5,
    ),
    (
        "end do twice",
        "integer a\n!$omp parallel do num_threads(1)\ndo i = 1, 4\nend do\n! x\nend do\n",
        2,
        6,
    ),
    (
        "end after end do",
        "integer a\n!$omp parallel do num_threads(1)\ndo i = 1, 4\nend do\nend\n",
        2,
        5,
    ),
    (
        "a statement after the closing directive",
        "integer a\n!$omp parallel do num_threads(1)\ndo i = 1, 4\nend do\n!$omp end parallel do\n\
         a = 1\n",
        2,
        6,
    ),
    (
        "integer after the closing directive",
        "integer a\n!$omp parallel do num_threads(1)\ndo i = 1, 4\nend do\n!$omp end parallel do\n\
         integer b\n",
        2,
        6,
    ),
    // Blocks (READING 24, 42)
    (
        "if left open",
        "integer a\n!$omp parallel do num_threads(1)\ndo i = 1, 4\nif (a == 1) then\na = 1\nend do\n",
        2,
        6,
    ),
    (
        "if left open after else",
        "integer a\n!$omp parallel do num_threads(1)\ndo i = 1, 4\nif (a == 1) then\nelse\nend do\n",
        2,
        6,
    ),
    (
        "two ifs, one closed",
        "integer a\n!$omp parallel do num_threads(1)\ndo i = 1, 4\nif (a == 1) then\n\
         if (a == 1) then\nend if\nend do\n",
        2,
        7,
    ),
    (
        "one end if too many",
        "integer a\n!$omp parallel do num_threads(1)\ndo i = 1, 4\nif (a == 1) then\nend if\nendif\n\
         end do\n",
        2,
        6,
    ),
    (
        "a second else",
        "integer a\n!$omp parallel do num_threads(1)\ndo i = 1, 4\nif (a == 1) then\nelse\nelse\n\
         end if\nend do\n",
        2,
        6,
    ),
    (
        "else after end if",
        "integer a\n!$omp parallel do num_threads(1)\ndo i = 1, 4\nif (a == 1) then\nend if\nelse\n\
         end do\n",
        2,
        6,
    ),
    (
        "else if",
        "integer a\n!$omp parallel do num_threads(1)\ndo i = 1, 4\nif (a == 1) then\n\
         else if (a == 2) then\nend if\nend do\n",
        2,
        5,
    ),
    (
        "two statements in one line",
        "integer a\n!$omp parallel do num_threads(1)\ndo i = 1, 4\na = 1; a = 2\nend do\n",
        2,
        4,
    ),
    (
        "a statement in two lines",
        "integer a\n!$omp parallel do num_threads(1)\ndo i = 1, 4\na = 1 +\n2\nend do\n",
        2,
        4,
    ),
    // Names over several lines
    (
        "declared twice in two lines",
        "integer a\ninteger b, a\n!$omp parallel do num_threads(1)\ndo i = 1, 4\nend do\n",
        3,
        2,
    ),
    (
        "given data twice",
        "integer a\ndata a /1/\ndata a /1/\n!$omp parallel do num_threads(1)\ndo i = 1, 4\nend do\n",
        3,
        3,
    ),
    (
        "given data twice, a literal over the limit (READING 51)",
        "integer a\ndata a /1/\ndata a /2147483648/\n!$omp parallel do num_threads(1)\n\
         do i = 1, 4\nend do\n",
        3,
        3,
    ),
    (
        "v declared, at the do line (READING 24)",
        "integer a, i\n!$omp parallel do num_threads(1)\ndo i = 1, 4\nend do\n",
        3,
        3,
    ),
    (
        "an array of one cell without subscript (READING 31)",
        "integer a(1)\n!$omp parallel do num_threads(1)\ndo i = 1, 4\na = 1\nend do\n",
        3,
        4,
    ),
    (
        "a name of another loop's v",
        "integer a\n!$omp parallel do num_threads(1)\ndo i = 1, 4\na = j\nend do\n",
        3,
        4,
    ),
    // Limits over several lines (READING 30)
    (
        "17 names in two lines",
        "integer a,b,c,d,e,f,g,h\ninteger i,j,k,l,m,n,o,p,q\n!$omp parallel do num_threads(1)\n\
         do v = 1, 4\nend do\n",
        4,
        2,
    ),
    (
        "17 names in three lines",
        "integer a,b,c,d,e,f,g,h\ninteger i,j,k,l,m,n,o,p\ninteger q\n\
         !$omp parallel do num_threads(1)\ndo v = 1, 4\nend do\n",
        4,
        3,
    ),
    (
        "the 17th name declared before",
        "integer a,b,c,d,e,f,g,h\ninteger i,j,k,l,m,n,o,p,a\n!$omp parallel do num_threads(1)\n\
         do v = 1, 4\nend do\n",
        3,
        2,
    ),
    (
        "N of 4,097 in two lines",
        "integer a(4096)\ninteger b\n!$omp parallel do num_threads(1)\ndo v = 1, 4\nend do\n",
        4,
        2,
    ),
    // The first bad line counts
    ("3 before a broken line", "integer a, a\n?\n", 3, 1),
    ("4 before a broken line", "integer a(0)\n?\n", 4, 1),
    ("4 before a 3", "integer a(0)\ninteger b, b\n\n", 4, 1),
    ("3 before a 4", "integer b, b\ninteger a(0)\n\n", 3, 1),
    ("a broken line before a 3", "integer\ninteger b, b\n\n", 2, 1),
    (
        "a broken line after a good one",
        "integer a\ninteger b b\ninteger a, a\n",
        2,
        2,
    ),
    (
        "4 in the directive before a 2 in do",
        "integer a\n!$omp parallel do num_threads(9)\ndo i = 1\nend do\n",
        4,
        2,
    ),
    (
        "3 in the body before a broken line",
        "integer a\n!$omp parallel do num_threads(1)\ndo i = 1, 4\nb = 1\na = \nend do\n",
        3,
        4,
    ),
    // Bytes (READING 4, 5)
    ("a tab", "integer a\n\t\n", 2, 2),
    (
        "carriage returns",
        "integer a\r\n!$omp parallel do num_threads(1)\r\ndo i = 1, 4\r\nend do\r\n",
        2,
        1,
    ),
    (
        "a bad byte in a comment at the end",
        "integer a\n!$omp parallel do num_threads(1)\ndo i = 1, 4\nend do\n! \u{7f}\n",
        2,
        5,
    ),
    (
        "a bad byte after the closing directive",
        "integer a\n!$omp parallel do num_threads(1)\ndo i = 1, 4\nend do\n!$omp end parallel do\n\0",
        2,
        6,
    ),
    ("a bad byte after a 3", "integer a, a\n\t\n", 3, 1),
    ("a bad byte before a 3", "\t\ninteger a, a\n\n", 2, 1),
    ("a bad byte in a line with a 3", "integer a, a\t\n\n", 2, 1),
];

/// All rows.
pub fn rows() -> Vec<TextRow> {
    let mut rows: Vec<TextRow> = GOOD
        .iter()
        .map(|(name, text, cells, processors)| TextRow::good(name, *text, *cells, *processors))
        .collect();
    rows.extend(
        BAD.iter()
            .map(|(name, text, number, line)| TextRow::bad(name, *text, *number, *line)),
    );
    rows.extend(byte_rows());
    rows
}

/// Every byte in a comment line 3: only 32 to 126 and the newline are good (READING 4, 5).
fn byte_rows() -> Vec<TextRow> {
    let row = |byte: u8| {
        let mut text = b"integer a\n!$omp parallel do num_threads(1)\n!x".to_vec();
        text.push(byte);
        text.extend(b"\ndo i = 1, 4\nend do\n");
        let name = format!("byte {byte} in a comment");
        match byte {
            10 | 32..=126 => TextRow::good(&name, text, 1, 1),
            _ => TextRow::bad(&name, text, 2, 3),
        }
    };
    (0..=255).map(row).collect()
}
