//! What the program `lrpd` prints (RULES 11; READING 94, 95, 96).

/// A name for the row, the standard input, and what is printed.
pub const ROWS: &[(&str, &str, &str)] = &[
    (
        "document 01",
        "integer a(4), k(4)\ndata k /2, 1, 4, 3/\n!$omp parallel do num_threads(2)\ndo i = 1, 4\n\
         a(k(i)) = 10 * i\nend do\n",
        "! passed 4 4\ndata a /20,10,40,30/\ndata k /2,1,4,3/\n",
    ),
    ("empty", "", "! refused 2 1 0\n"),
    ("a name twice", "integer a, a\n\n", "! refused 3 1 0\n"),
    ("a length of 0", "integer a(0)\n\n", "! refused 4 1 0\n"),
    (
        "rerun",
        "integer a(2)\n!$omp parallel do num_threads(2)\ndo i = 1, 2\na(1) = i\nend do\n",
        "! rerun 2 1\ndata a /2,0/\n",
    ),
    (
        "one block (document 02, Point 3)",
        "integer a(4)\ndata a /1, 3*0/\n!$omp parallel do num_threads(1) schedule(static)\n\
         do i = 2, 4\na(i) = 2*a(i - 1)\nend do\n",
        "! passed 3 3\ndata a /1,2,4,8/\n",
    ),
    (
        "two blocks",
        "integer a(4)\ndata a /1, 3*0/\n!$omp parallel do num_threads(2) schedule(static)\n\
         do i = 2, 4\na(i) = 2*a(i - 1)\nend do\n",
        "! rerun 3 3\ndata a /1,2,4,8/\n",
    ),
    (
        "schedule(dynamic)",
        "integer a(4)\n!$omp parallel do num_threads(2) schedule(dynamic)\ndo i = 2, 4\nend do\n",
        "! refused 2 2 0\n",
    ),
    (
        "read early and overwritten later (document 02, Point 5)",
        "integer z, a(3)\ndata z /5/\n!$omp parallel do num_threads(2) firstprivate(z) lastprivate(z)\n\
         do i = 1, 3\na(i) = z + i\nif (i == 3) then\nz = 0\nend if\nend do\n",
        "! passed 4 4\ndata z /0/\ndata a /6,7,8/\n",
    ),
    (
        "the same in lastprivate alone",
        "integer z, a(3)\ndata z /5/\n!$omp parallel do num_threads(2) lastprivate(z)\n\
         do i = 1, 3\na(i) = z + i\nif (i == 3) then\nz = 0\nend if\nend do\n",
        "! rerun 4 4\ndata z /0/\ndata a /6,7,8/\n",
    ),
    (
        "the same in firstprivate alone",
        "integer z, a(3)\ndata z /5/\n!$omp parallel do num_threads(2) firstprivate(z)\n\
         do i = 1, 3\na(i) = z + i\nif (i == 3) then\nz = 0\nend if\nend do\n",
        "! refused 3 3 0\n",
    ),
    (
        "a product and a maximum (document 02, Point 6)",
        "integer w, peak, a(4)\ndata w /2/\ndata peak /-9/\ndata a /-3, 5, -7, 1/\n\
         !$omp parallel do num_threads(2) reduction(*:w) reduction(max:peak)\n\
         do i = 1, 4\nw = w * a(i)\npeak = max(peak, -a(i))\nend do\n",
        "! passed 8 2\ndata w /210/\ndata peak /7/\ndata a /-3,5,-7,1/\n",
    ),
    (
        "the same with the operations exchanged",
        "integer w, peak, a(4)\ndata w /2/\ndata peak /-9/\ndata a /-3, 5, -7, 1/\n\
         !$omp parallel do num_threads(2) reduction(max:w) reduction(*:peak)\n\
         do i = 1, 4\nw = w * a(i)\npeak = max(peak, -a(i))\nend do\n",
        "! rerun 8 2\ndata w /210/\ndata peak /7/\ndata a /-3,5,-7,1/\n",
    ),
    (
        "a name in two reduction clauses",
        "integer w\n!$omp parallel do num_threads(2) reduction(*:w) reduction(max:w)\ndo i = 1, 4\nend do\n",
        "! refused 3 2 0\n",
    ),
    (
        "max as a name",
        "integer max\n!$omp parallel do num_threads(2)\ndo i = 1, 4\nmax = i\nend do\n",
        "! refused 2 1 0\n",
    ),
    (
        "reduction(min:w)",
        "integer w\n!$omp parallel do num_threads(2) reduction(min:w)\ndo i = 1, 4\nend do\n",
        "! refused 2 2 0\n",
    ),
    (
        "no iterations, names in upper case",
        "integer Zz, Y(2)\ndata Y /2*-3/\n!$omp parallel do num_threads(8)\ndo i = 1, 0\nend do\n",
        "! passed 0 0\ndata zz /0/\ndata y /-3,-3/\n",
    ),
    (
        "a fault: subscript",
        "integer a(4)\n! x\n!$omp parallel do num_threads(2)\ndo i = -3, 0\na(i) = 1\nend do\n",
        "! refused 9 5 -3\n",
    ),
    (
        "a fault: divisor",
        "integer a(4)\n!$omp parallel do num_threads(2)\ndo i = 1, 4\na(i) = 1/(i - 3)\nend do\n",
        "! refused 10 4 3\n",
    ),
    (
        "a grid in its element order (document 02, Point 9)",
        "integer g(2, 3)\n!$omp parallel do num_threads(2)\ndo i = 1, 3\ng(1, i) = i\ng(2, i) = 10*i\nend do\n",
        "! passed 6 6\ndata g /1,10,2,20,3,30/\n",
    ),
    (
        "grids among other names, with data",
        "integer s, Bed(3, 2), a(2)\ndata bed /1, 2, 3, 4, 5, 6/\n!$omp parallel do num_threads(2)\n\
         do i = 1, 2\na(i) = bed(1, i)\nbed(i + 1, 2) = -i\nend do\n",
        "! passed 4 4\ndata s /0/\ndata bed /1,2,3,4,-1,-2/\ndata a /1,4/\n",
    ),
    (
        "one cell of a grid for all",
        "integer g(1, 1)\n!$omp parallel do num_threads(2)\ndo i = 1, 2\ng(1, 1) = i\nend do\n",
        "! rerun 2 1\ndata g /2/\n",
    ),
    (
        "a cell of a grid updated",
        "integer g(2, 2)\ndata g /4*5/\n!$omp parallel do num_threads(2) reduction(+:g)\ndo i = 1, 4\n\
         g(2, 1) = g(2, 1) + i\nend do\n",
        "! passed 4 1\ndata g /5,15,5,5/\n",
    ),
    (
        "a fault: the first subscript, of a cell that would be inside",
        "integer g(2, 3)\n!$omp parallel do num_threads(2)\ndo i = 1, 3\ng(i, 1) = 1\nend do\n",
        "! refused 9 4 3\n",
    ),
    (
        "a fault: the second subscript",
        "integer g(2, 3)\n!$omp parallel do num_threads(2)\ndo i = 1, 4\ng(1, i) = 1\nend do\n",
        "! refused 9 4 4\n",
    ),
    (
        "a fault: a divisor in the second subscript, before the first is tested",
        "integer g(2, 3)\n!$omp parallel do num_threads(2)\ndo i = 7, 7\ng(9, 1/0) = 1\nend do\n",
        "! refused 10 4 7\n",
    ),
    (
        "one subscript where two belong",
        "integer g(2, 3)\n!$omp parallel do num_threads(2)\ndo i = 1, 4\ng(1) = 1\nend do\n",
        "! refused 3 4 0\n",
    ),
    (
        "two subscripts for one",
        "integer a(6)\n!$omp parallel do num_threads(2)\ndo i = 1, 4\na(1, 2) = 1\nend do\n",
        "! refused 3 4 0\n",
    ),
    (
        "three subscripts",
        "integer g(2, 3)\n!$omp parallel do num_threads(2)\ndo i = 1, 4\ng(1, 2, 1) = 1\nend do\n",
        "! refused 2 4 0\n",
    ),
    (
        "65,536 by 65,536",
        "integer g(65536, 65536)\n!$omp parallel do num_threads(2)\ndo i = 1, 4\nend do\n",
        "! refused 4 1 0\n",
    ),
    (
        "128 cells in a grid",
        "integer g(8, 16)\ndata g /128*-7/\n!$omp parallel do num_threads(8)\ndo i = 1, 0\nend do\n",
        "! passed 0 0\ndata g /-7,-7,-7,-7,-7,-7,-7,-7,-7,-7,-7,-7,-7,-7,-7,-7,-7,-7,-7,-7,-7,-7,-7,-7,-7,-7,-7,\
         -7,-7,-7,-7,-7,-7,-7,-7,-7,-7,-7,-7,-7,-7,-7,-7,-7,-7,-7,-7,-7,-7,-7,-7,-7,-7,-7,-7,-7,-7,-7,-7,-7,\
         -7,-7,-7,-7,-7,-7,-7,-7,-7,-7,-7,-7,-7,-7,-7,-7,-7,-7,-7,-7,-7,-7,-7,-7,-7,-7,-7,-7,-7,-7,-7,-7,-7,\
         -7,-7,-7,-7,-7,-7,-7,-7,-7,-7,-7,-7,-7,-7,-7,-7,-7,-7,-7,-7,-7,-7,-7,-7,-7,-7,-7,-7,-7,-7,-7,-7,-7,\
         -7,-7/\n",
    ),
    (
        "129 cells in a grid",
        "integer g(3, 43)\n!$omp parallel do num_threads(1)\ndo i = 1, 1\nend do\n",
        "! refused 5 0 0\n",
    ),
    (
        "the least value, which no data line could give",
        "integer a\n!$omp parallel do num_threads(1)\ndo i = 1, 1\na = 2147483647 + 1\nend do\n",
        "! passed 1 1\ndata a /-2147483648/\n",
    ),
    (
        "129 cells",
        "integer a(129)\n!$omp parallel do num_threads(1)\ndo i = 1, 1\nend do\n",
        "! refused 5 0 0\n",
    ),
    (
        "129 cells in two names, and a fault that is not reached",
        "integer a(128), b\n!$omp parallel do num_threads(1)\ndo i = 1, 1\na(0) = 1\nend do\n",
        "! refused 5 0 0\n",
    ),
    (
        "128 cells",
        "integer s, a(127)\ndata a /127*1/\n!$omp parallel do num_threads(4) reduction(+:s)\n\
         do i = 1, 127\ns = s + a(i)\nend do\n",
        "! passed 127 1\ndata s /127/\ndata a /1,1,1,1,1,1,1,1,1,1,1,1,1,1,1,1,1,1,1,1,1,1,1,1,1,1,1,\
         1,1,1,1,1,1,1,1,1,1,1,1,1,1,1,1,1,1,1,1,1,1,1,1,1,1,1,1,1,1,1,1,1,1,1,1,1,1,1,1,1,1,1,1,1,1,\
         1,1,1,1,1,1,1,1,1,1,1,1,1,1,1,1,1,1,1,1,1,1,1,1,1,1,1,1,1,1,1,1,1,1,1,1,1,1,1,1,1,1,1,1,1,1,\
         1,1,1,1,1,1,1,1/\n",
    ),
];
