//! Print (document 02, Point 8): the printed forms of texts, and what is refused.

/// A text, how many bytes are lent, and what Print answers.
#[derive(Debug, Clone)]
pub struct PrintRow {
    pub name: String,
    pub text: Vec<u8>,
    /// How many bytes are lent.
    pub room: usize,
    /// The printed form, or the number and line of the refusal.
    pub expected: Result<Vec<u8>, (u32, u32)>,
}

/// A name for the row, a text, and its printed form.
const FORMS: &[(&str, &str, &str)] = &[
    (
        "everything",
        "! Levels\n\n  INTEGER Level(04),s ,  a_1\ninteger k( 3 ), w,P\n   \n\
         data Level/2*-007,1*+1,00/\nDATA K / 3 * 2 /\n!$om\n\
         \x20!$OMP parallel do reduction(+:S)num_threads(02) lastprivate( a_1 ) schedule(static)shared(k,level)\
         reduction( * : w ) firstprivate(A_1) reduction(MAX:p)\n\
         ! the loop\nDo I=+1,0010\n  if(Level(k(1))/=-00)then\n    s=S+max(i,2)*rdiv(-3,(02))\n  ELSE\n\
         \x20   a_1 = level( 1 )-1/2\n  EndIf\n\nif (i<=4)then\nend  if\nEndDo  \n\n\
         !$omp END parallel DO\n! end",
        "integer level ( 4 ) , s , a_1\n\
         integer k ( 3 ) , w , p\n\
         data level / - 7 , - 7 , + 1 , 0 /\n\
         data k / 2 , 2 , 2 /\n\
         !$omp parallel do reduction ( + : s ) num_threads ( 2 ) lastprivate ( a_1 ) schedule ( static ) \
         shared ( k , level ) reduction ( * : w ) firstprivate ( a_1 ) reduction ( max : p )\n\
         do i = + 1 , 10\n\
         if ( level ( k ( 1 ) ) /= - 0 ) then\n\
         s = s + max ( i , 2 ) * rdiv ( - 3 , ( 2 ) )\n\
         else\n\
         a_1 = level ( 1 ) - 1 / 2\n\
         end if\n\
         if ( i <= 4 ) then\n\
         end if\n\
         end do\n",
    ),
    (
        "document 01",
        "integer a(4), k(4)\ndata k /2, 1, 4, 3/\n!$omp parallel do num_threads(2)\ndo i = 1, 4\n\
         a(k(i)) = 10 * i\nend do\n",
        "integer a ( 4 ) , k ( 4 )\ndata k / 2 , 1 , 4 , 3 /\n!$omp parallel do num_threads ( 2 )\n\
         do i = 1 , 4\na ( k ( i ) ) = 10 * i\nend do\n",
    ),
    (
        "the smallest",
        "integer a\n!$omp parallel do num_threads(1)\ndo i=1,0\nenddo",
        "integer a\n!$omp parallel do num_threads ( 1 )\ndo i = 1 , 0\nend do\n",
    ),
    (
        "upper case alone",
        "INTEGER A\nDATA A / 1 /\n!$OMP PARALLEL DO NUM_THREADS ( 1 )\nDO I = 1 , 4\n\
         IF ( A == RDIV ( I , 2 ) ) THEN\nA = MAX ( A , I )\nELSE\nEND IF\nEND DO\n",
        "integer a\ndata a / 1 /\n!$omp parallel do num_threads ( 1 )\ndo i = 1 , 4\n\
         if ( a == rdiv ( i , 2 ) ) then\na = max ( a , i )\nelse\nend if\nend do\n",
    ),
    (
        "every letter",
        "integer AbCdEfGhIjKlMnOpQrStUvWxYz, aBcDeFgHiJkLmNoPqRsTuVwXyZ0\n\
         !$omp parallel do num_threads(1)\ndo Z_ = 1, 4\nend do\n",
        "integer abcdefghijklmnopqrstuvwxyz , abcdefghijklmnopqrstuvwxyz0\n\
         !$omp parallel do num_threads ( 1 )\ndo z_ = 1 , 4\nend do\n",
    ),
    (
        "as few blanks as may be",
        "integer a(2),b\ndata b/5/\n!$omp parallel do num_threads(1)lastprivate(b)\ndo i=1,4\n\
         if(b<1)then\nb=a(i)*2-1\nelse\nendif\nenddo",
        "integer a ( 2 ) , b\ndata b / 5 /\n!$omp parallel do num_threads ( 1 ) lastprivate ( b )\n\
         do i = 1 , 4\nif ( b < 1 ) then\nb = a ( i ) * 2 - 1\nelse\nend if\nend do\n",
    ),
    (
        "many blanks",
        "   integer   a   (   2   )   ,   b   \n  data  b  /  5  /  \n   !$omp   parallel   do   num_threads   (   1   )   \n\
         \x20 do   i   =   1   ,   4   \n   if  (  b  <  1  )  then   \n   b   =   a  (  i  )  *  2  -  1   \n\
         \x20  else   \n   end   if   \n   end   do   \n   !$omp   end   parallel   do   \n",
        "integer a ( 2 ) , b\ndata b / 5 /\n!$omp parallel do num_threads ( 1 )\n\
         do i = 1 , 4\nif ( b < 1 ) then\nb = a ( i ) * 2 - 1\nelse\nend if\nend do\n",
    ),
    (
        "comments and empty lines everywhere",
        "\n! x\n  ! INTEGER b\n\ninteger a\n!\n   \n!$om\ninteger b\n!!$omp end parallel do\n\ndata a /1/\n! 2*1\n\
         data b /1/\n!!\n!$omp parallel do num_threads(3)\n\n! $omp parallel do\ndo i = 1, 4\n!$ omp\n\
         if (a == 1) then\n! y\nelse\n\n! ~\nend if\n   !\nend do\n! x\n\n!$omp end parallel do\n! z\n\n   \n",
        "integer a\ninteger b\ndata a / 1 /\ndata b / 1 /\n!$omp parallel do num_threads ( 3 )\ndo i = 1 , 4\n\
         if ( a == 1 ) then\nelse\nend if\nend do\n",
    ),
    (
        "endings in one word",
        "integer a\n!$omp parallel do num_threads(1)\ndo i = 1, 4\nif (a == 1) then\nif (a == 2) then\n\
         endif\nENDIF\nEndDo\n",
        "integer a\n!$omp parallel do num_threads ( 1 )\ndo i = 1 , 4\nif ( a == 1 ) then\nif ( a == 2 ) then\n\
         end if\nend if\nend do\n",
    ),
    (
        "endings in two words",
        "integer a\n!$omp parallel do num_threads(1)\ndo i = 1, 4\nif (a == 1) then\nif (a == 2) then\n\
         end if\nEND    IF\nEnd Do\n",
        "integer a\n!$omp parallel do num_threads ( 1 )\ndo i = 1 , 4\nif ( a == 1 ) then\nif ( a == 2 ) then\n\
         end if\nend if\nend do\n",
    ),
    (
        "a closing directive without newline",
        "integer a\n!$omp parallel do num_threads(1)\ndo i = 1, 4\nend do\n!$OMP END PARALLEL DO",
        "integer a\n!$omp parallel do num_threads ( 1 )\ndo i = 1 , 4\nend do\n",
    ),
    (
        "names that begin like other words",
        "integer enddo1, endif_, end_, data_, integers, do1, if2, then3, else4, rdiv5, maxi, omp\n\
         data data_ /1/\n!$omp parallel do num_threads(1)\ndo endi = 1, 4\nenddo1 = endif_\nend_=data_+omp\n\
         if2 = maxi\nend do\n",
        "integer enddo1 , endif_ , end_ , data_ , integers , do1 , if2 , then3 , else4 , rdiv5 , maxi , omp\n\
         data data_ / 1 /\n!$omp parallel do num_threads ( 1 )\ndo endi = 1 , 4\nenddo1 = endif_\n\
         end_ = data_ + omp\nif2 = maxi\nend do\n",
    ),
    (
        "words of clauses as names",
        "integer parallel, shared(2), schedule, static, reduction\n\
         !$omp parallel do shared(shared)num_threads(2) reduction(max:reduction)schedule(static) lastprivate(static)\n\
         do num_threads=1,2\nshared(num_threads)=parallel\nend do\n",
        "integer parallel , shared ( 2 ) , schedule , static , reduction\n\
         !$omp parallel do shared ( shared ) num_threads ( 2 ) reduction ( max : reduction ) schedule ( static ) \
         lastprivate ( static )\n\
         do num_threads = 1 , 2\nshared ( num_threads ) = parallel\nend do\n",
    ),
    (
        "the longest name",
        "integer Abcdefghijklmnopqrstuvwxyz_1234(1)\n!$omp parallel do num_threads(8)\n\
         do i = -2147483647, -2147483647\nabcdefghijklmnopqrstuvwxyz_1234(1)=2147483647\nend do\n",
        "integer abcdefghijklmnopqrstuvwxyz_1234 ( 1 )\n!$omp parallel do num_threads ( 8 )\n\
         do i = - 2147483647 , - 2147483647\nabcdefghijklmnopqrstuvwxyz_1234 ( 1 ) = 2147483647\nend do\n",
    ),
    (
        "data lines in another order than names, and names without data",
        "integer a, b, c, d\ndata d /1/\ndata b /0/\n!$omp parallel do num_threads(1)\ndo i = 1, 4\nend do\n",
        "integer a , b , c , d\ndata d / 1 /\ndata b / 0 /\n!$omp parallel do num_threads ( 1 )\ndo i = 1 , 4\nend do\n",
    ),
    (
        "the same statements twice",
        "integer a\n!$omp parallel do num_threads(1)\ndo i = 1, 4\na = 1\na = 1\nA=01\nend do\n",
        "integer a\n!$omp parallel do num_threads ( 1 )\ndo i = 1 , 4\na = 1\na = 1\na = 1\nend do\n",
    ),
];

/// `integer` lines and what they print, in a text without data and statements.
const INTEGERS: &[(&str, &str)] = &[
    ("integer a", "integer a"),
    ("integer A , b", "integer a , b"),
    ("integer a,b(1)", "integer a , b ( 1 )"),
    ("integer a(4096)", "integer a ( 4096 )"),
    ("integer a(0000000000000000012)", "integer a ( 12 )"),
    ("INTEGER B ( 10 ), A(0100)", "integer b ( 10 ) , a ( 100 )"),
    ("integer a0,a00,a1(01)", "integer a0 , a00 , a1 ( 1 )"),
    // document 02, Point 9
    ("integer g(2,3)", "integer g ( 2 , 3 )"),
    (
        "INTEGER G ( 002,03 ) ,a(4)",
        "integer g ( 2 , 3 ) , a ( 4 )",
    ),
    ("integer g(1,1),h(1)", "integer g ( 1 , 1 ) , h ( 1 )"),
    ("integer g(064,64)", "integer g ( 64 , 64 )"),
    ("integer a,g( 4095,0001 )", "integer a , g ( 4095 , 1 )"),
];

/// `data` lines and what they print: s is one cell, a and b are four each, g is two by three.
const DATA: &[(&str, &str)] = &[
    ("data s /5/", "data s / 5 /"),
    ("data s/007/", "data s / 7 /"),
    ("data s /000/", "data s / 0 /"),
    ("data s /0/", "data s / 0 /"),
    ("data s /100/", "data s / 100 /"),
    ("data s /0100/", "data s / 100 /"),
    (
        "data s /00000000000000000002147483647/",
        "data s / 2147483647 /",
    ),
    // 8.2
    ("data s /+1/", "data s / + 1 /"),
    ("data s /-1/", "data s / - 1 /"),
    ("data s /- 1/", "data s / - 1 /"),
    ("data s /+   01/", "data s / + 1 /"),
    ("data s /-0/", "data s / - 0 /"),
    ("data s /+0/", "data s / + 0 /"),
    ("data s /-000/", "data s / - 0 /"),
    // 8.4
    ("data s /1*5/", "data s / 5 /"),
    ("data s /1*-5/", "data s / - 5 /"),
    ("data s /0001*+0005/", "data s / + 5 /"),
    ("data a /4*0/", "data a / 0 , 0 , 0 , 0 /"),
    ("data a /0,0,0,0/", "data a / 0 , 0 , 0 , 0 /"),
    ("data a/4*7/", "data a / 7 , 7 , 7 , 7 /"),
    ("DATA A / 04 * - 07 /", "data a / - 7 , - 7 , - 7 , - 7 /"),
    ("data a /2*+1,2*1/", "data a / + 1 , + 1 , 1 , 1 /"),
    ("data a /3*-1, 9/", "data a / - 1 , - 1 , - 1 , 9 /"),
    ("data a /9, 3*-1/", "data a / 9 , - 1 , - 1 , - 1 /"),
    ("data a/1,2*3,4/", "data a / 1 , 3 , 3 , 4 /"),
    ("data a /1*1,1*2,1*3,1*4/", "data a / 1 , 2 , 3 , 4 /"),
    (
        "data a /1, -2, +3, 2147483647/",
        "data a / 1 , - 2 , + 3 , 2147483647 /",
    ),
    ("data a /-0, 0, +0, -00/", "data a / - 0 , 0 , + 0 , - 0 /"),
    ("data g /6*0/", "data g / 0 , 0 , 0 , 0 , 0 , 0 /"),
    (
        "DATA G/1,02,2*-3,1*+4,5/",
        "data g / 1 , 2 , - 3 , - 3 , + 4 , 5 /",
    ),
];

/// Directives and what they print: s, t and u are one cell, a and b are arrays, g is a grid.
const DIRECTIVES: &[(&str, &str)] = &[
    (
        "!$omp parallel do num_threads(8)",
        "!$omp parallel do num_threads ( 8 )",
    ),
    (
        "  !$OMP  PARALLEL  DO  NUM_THREADS (008)",
        "!$omp parallel do num_threads ( 8 )",
    ),
    (
        "!$omp parallel do shared(a)shared(b)num_threads(1)",
        "!$omp parallel do shared ( a ) shared ( b ) num_threads ( 1 )",
    ),
    (
        "!$omp parallel do num_threads(1) shared(b, a)",
        "!$omp parallel do num_threads ( 1 ) shared ( b , a )",
    ),
    (
        "!$omp parallel do lastprivate(s,t) num_threads(1) firstprivate(t)",
        "!$omp parallel do lastprivate ( s , t ) num_threads ( 1 ) firstprivate ( t )",
    ),
    (
        "!$omp parallel do firstprivate(t)lastprivate(t)num_threads(1)",
        "!$omp parallel do firstprivate ( t ) lastprivate ( t ) num_threads ( 1 )",
    ),
    (
        "!$omp parallel do reduction(+:s)reduction( * : T ,u)num_threads(1)reduction(MAX:a)",
        "!$omp parallel do reduction ( + : s ) reduction ( * : t , u ) num_threads ( 1 ) reduction ( max : a )",
    ),
    (
        "!$omp parallel do num_threads(1)lastprivate(s,G)firstprivate( g )",
        "!$omp parallel do num_threads ( 1 ) lastprivate ( s , g ) firstprivate ( g )",
    ),
    (
        "!$omp parallel do SCHEDULE(STATIC) num_threads(2)",
        "!$omp parallel do schedule ( static ) num_threads ( 2 )",
    ),
    (
        "!$omp parallel do num_threads(2)schedule( static )",
        "!$omp parallel do num_threads ( 2 ) schedule ( static )",
    ),
];

/// `do` lines and what they print.
const DO_LINES: &[(&str, &str)] = &[
    ("do i = 1, 4", "do i = 1 , 4"),
    ("do i=+1,4", "do i = + 1 , 4"),
    ("DO I =-1,+ 4", "do i = - 1 , + 4"),
    ("do i=00,-00", "do i = 0 , - 0"),
    ("do i = 4, 1", "do i = 4 , 1"),
    (
        "do i=002147483647,2147483647",
        "do i = 2147483647 , 2147483647",
    ),
];

/// Statements and what they print: s and t are one cell, a and b are arrays, g is a grid.
const STATEMENTS: &[(&str, &str)] = &[
    ("a(i)=-1", "a ( i ) = - 1"),
    ("A ( I ) = - 01", "a ( i ) = - 1"),
    ("s=1", "s = 1"),
    ("s=+1", "s = + 1"),
    ("s=-0", "s = - 0"),
    ("s=(1)", "s = ( 1 )"),
    ("s=((01))", "s = ( ( 1 ) )"),
    ("s=(-1)", "s = ( - 1 )"),
    ("s=-(-(-1))", "s = - ( - ( - 1 ) )"),
    ("s=rdiv(3,2)", "s = rdiv ( 3 , 2 )"),
    ("S=MAX(-S,+T)", "s = max ( - s , + t )"),
    ("s=s+1-2*3/4", "s = s + 1 - 2 * 3 / 4"),
    ("s=1+0+0", "s = 1 + 0 + 0"),
    ("s=0*t", "s = 0 * t"),
    ("s=t-t", "s = t - t"),
    ("s=s", "s = s"),
    ("a(01)=A( 1 )-2", "a ( 1 ) = a ( 1 ) - 2"),
    ("a(b(a(+i)))=i", "a ( b ( a ( + i ) ) ) = i"),
    ("a(0)=1/0", "a ( 0 ) = 1 / 0"),
    ("s=2147483647+0000", "s = 2147483647 + 0"),
    ("s = 10 + 010 + 100", "s = 10 + 10 + 100"),
    // document 02, Point 9
    ("g(1,2)=3", "g ( 1 , 2 ) = 3"),
    ("G ( 01 , 002 ) = - 03", "g ( 1 , 2 ) = - 3"),
    ("g(2,1)=3", "g ( 2 , 1 ) = 3"),
    ("s=g(i,-i+1)", "s = g ( i , - i + 1 )"),
    ("s=g(+1,(2))", "s = g ( + 1 , ( 2 ) )"),
    ("g(01,2)=G( 1 ,02 )+1", "g ( 1 , 2 ) = g ( 1 , 2 ) + 1"),
    (
        "g(g(1,1),a(1))=g(9,1/0)",
        "g ( g ( 1 , 1 ) , a ( 1 ) ) = g ( 9 , 1 / 0 )",
    ),
    (
        "g(1,1)=max(g(1,1),g(2,3))",
        "g ( 1 , 1 ) = max ( g ( 1 , 1 ) , g ( 2 , 3 ) )",
    ),
    (
        "if(g(1,2)/=g(2,1))then\nendif",
        "if ( g ( 1 , 2 ) /= g ( 2 , 1 ) ) then\nend if",
    ),
    ("if(s==1)then\nendif", "if ( s == 1 ) then\nend if"),
    ("if (s/=1)then\nend if", "if ( s /= 1 ) then\nend if"),
    ("if(s<1)then\nendif", "if ( s < 1 ) then\nend if"),
    ("if(s<=1)then\nendif", "if ( s <= 1 ) then\nend if"),
    ("if(s>1)then\nendif", "if ( s > 1 ) then\nend if"),
    ("if(s>=1)then\nendif", "if ( s >= 1 ) then\nend if"),
    (
        "IF(-S<=-01)THEN\ns=1\nELSE\nt=2\nENDIF",
        "if ( - s <= - 1 ) then\ns = 1\nelse\nt = 2\nend if",
    ),
    (
        "if((s)+1>=(t))then\nelse\nend if",
        "if ( ( s ) + 1 >= ( t ) ) then\nelse\nend if",
    ),
];

/// A text of these lines, of which some may be missing.
pub(super) fn framed(
    integers: &str,
    data: &str,
    directive: &str,
    bounds: &str,
    body: &str,
) -> String {
    let lines = [integers, data, directive, bounds, body, "end do"];
    let said = lines.into_iter().filter(|line| !line.is_empty());
    said.map(|line| line.to_string() + "\n").collect()
}

const NAMES: [&str; 2] = [
    "integer s, t, u, a(4), b(4), g(2, 3)",
    "integer s , t , u , a ( 4 ) , b ( 4 ) , g ( 2 , 3 )",
];
const DIRECTIVE: [&str; 2] = [
    "!$omp parallel do num_threads(2)",
    "!$omp parallel do num_threads ( 2 )",
];
const BOUNDS: [&str; 2] = ["do i = 1, 4", "do i = 1 , 4"];

/// Each line in a text around it, with the text's printed form.
fn line_forms() -> Vec<(String, String, String)> {
    let mut forms = Vec::new();
    let mut add = |line: &str, texts: [String; 2]| {
        let [text, form] = texts;
        forms.push((line.to_string(), text, form));
    };
    for (line, shown) in INTEGERS {
        let lines = [*line, *shown];
        let text = |side: usize| framed(lines[side], "", DIRECTIVE[side], BOUNDS[side], "");
        add(line, [0, 1].map(text));
    }
    for (line, shown) in DATA {
        let lines = [*line, *shown];
        let text =
            |side: usize| framed(NAMES[side], lines[side], DIRECTIVE[side], BOUNDS[side], "");
        add(line, [0, 1].map(text));
    }
    for (line, shown) in DIRECTIVES {
        let lines = [*line, *shown];
        let text = |side: usize| framed(NAMES[side], "", lines[side], BOUNDS[side], "");
        add(line, [0, 1].map(text));
    }
    for (line, shown) in DO_LINES {
        let lines = [*line, *shown];
        let text = |side: usize| framed(NAMES[side], "", DIRECTIVE[side], lines[side], "");
        add(line, [0, 1].map(text));
    }
    for (line, shown) in STATEMENTS {
        let lines = [*line, *shown];
        let text =
            |side: usize| framed(NAMES[side], "", DIRECTIVE[side], BOUNDS[side], lines[side]);
        add(line, [0, 1].map(text));
    }
    forms
}

/// A text whose data is copies of one value, and its form; the second name makes it as long as wanted.
fn copied(name: &str, copies: usize, value: &str, shown: &str) -> [String; 2] {
    let all = vec![shown; copies].join(" , ");
    [
        framed(
            &format!("integer a({copies}), {name}"),
            &format!("data a /{copies}*{value}/"),
            DIRECTIVE[0],
            BOUNDS[0],
            "",
        ),
        framed(
            &format!("integer a ( {copies} ) , {name}"),
            &format!("data a / {all} /"),
            DIRECTIVE[1],
            BOUNDS[1],
            "",
        ),
    ]
}

/// The text with the longest form: of its 2,048 bytes those that need no more than one give two, and 25 give all
/// cells. A grid has two tokens more than an array and one more byte (8.7).
pub fn longest() -> [String; 2] {
    let declared = ["a(64,64)", "a ( 64 , 64 )"];
    all_cells(declared, ["a(1,1)=", "a ( 1 , 1 ) = "], 976)
}

/// The same of an array.
fn longest_array() -> [String; 2] {
    all_cells(["a(4096)", "a ( 4096 )"], ["a(1)=-", "a ( 1 ) = - "], 977)
}

/// A text of all cells, whose statement begins so and adds so many ones, and its form.
fn all_cells(declared: [&str; 2], begun: [&str; 2], ones: usize) -> [String; 2] {
    let ones = vec!["1"; ones];
    let text = format!(
        "integer {}\ndata a/4096*-2147483647/\n!$omp parallel do num_threads(1)\ndo i=1,1\n{}{}\nenddo",
        declared[0],
        begun[0],
        ones.join("+")
    );
    assert_eq!(text.len(), 2048);
    let data = vec!["- 2147483647"; 4096].join(" , ");
    let form = format!(
        "integer {}\ndata a / {data} /\n!$omp parallel do num_threads ( 1 )\ndo i = 1 , 1\n{}{}\nend do\n",
        declared[1],
        begun[1],
        ones.join(" + ")
    );
    [text, form]
}

/// Forms that are long, with their lengths.
fn long_forms() -> Vec<(String, String, String)> {
    let row = |name: &str, length: usize, [text, form]: [String; 2]| {
        assert_eq!(form.len(), length, "{name}");
        (name.to_string(), text, form)
    };
    // A comment makes the text as long as a text may be.
    let mut padded = copied("s", 3, "1", "1");
    padded[0] += "!";
    padded[0] += &".".repeat(2048 - padded[0].len());
    vec![
        row("2,048 bytes of text", 97, padded),
        row("2,047 bytes", 2047, copied(&"q".repeat(13), 487, "1", "1")),
        row("2,048 bytes", 2048, copied(&"q".repeat(14), 487, "1", "1")),
        row("2,049 bytes", 2049, copied(&"q".repeat(15), 487, "1", "1")),
        row("4,096 zeros", 16468, copied_alone("0", "0")),
        row("4,096 times -0", 24660, copied_alone("-000", "- 0")),
        row("4,096 times +10", 28756, copied_alone("+10", "+ 10")),
        row("the longest", 65443, longest()),
        row("the longest without grids", 65442, longest_array()),
    ]
}

/// The same with all cells in one name.
fn copied_alone(value: &str, shown: &str) -> [String; 2] {
    let [text, form] = copied("s", 4096, value, shown);
    [text.replace(", s", ""), form.replace(" , s\n", "\n")]
}

/// What Print answers.
pub fn rows() -> Vec<PrintRow> {
    let mut forms: Vec<(String, String, String)> = FORMS
        .iter()
        .map(|(name, text, form)| (name.to_string(), text.to_string(), form.to_string()))
        .collect();
    forms.extend(line_forms());
    forms.extend(long_forms());
    let mut rows: Vec<PrintRow> = forms
        .iter()
        .flat_map(|(name, text, form)| rows_of(name, text, form))
        .collect();
    rows.extend(refusal_rows());
    rows
}

/// A text with other numbers of bytes lent, and its form as a text.
fn rows_of(name: &str, text: &str, form: &str) -> Vec<PrintRow> {
    let row = |what: &str, text: &str, room: usize, expected: Result<&str, (u32, u32)>| PrintRow {
        name: format!("{name}: {what}"),
        text: text.into(),
        room,
        expected: expected.map(Into::into),
    };
    let length = form.len();
    // "A printed text that fits in 2,048 bytes is accepted and prints as itself."
    let again = if length <= 2048 {
        Ok(form)
    } else {
        Err((1, 0))
    };
    vec![
        row("exactly enough", text, length, Ok(form)),
        row("a byte more", text, length + 1, Ok(form)),
        row("more bytes", text, length + 300, Ok(form)),
        row("a byte too few", text, length - 1, Err((12, 0))),
        row("half of them", text, length / 2, Err((12, 0))),
        row("one byte", text, 1, Err((12, 0))),
        row("no bytes", text, 0, Err((12, 0))),
        row("its form", form, length, again),
    ]
}

/// Texts that are refused: "1, 2-4, 12", whether many bytes are lent or none (8.8).
fn refusal_rows() -> Vec<PrintRow> {
    let [good, _] = copied("s", 3, "1", "1");
    let too_long = format!("{good}!{}", ".".repeat(2048 - good.len()));
    assert_eq!(too_long.len(), 2049);
    let refused: [(&str, String, u32, u32); 19] = [
        ("2,049 bytes", too_long, 1, 0),
        ("2,049 bytes of no text", "(".repeat(2049), 1, 0),
        ("10,000 newlines", "\n".repeat(10_000), 1, 0),
        ("no bytes", String::new(), 2, 1),
        ("no end do", good.replace("end do\n", ""), 2, 4),
        ("a broken line", good.replace("do i = 1", "do i 1"), 2, 4),
        ("a tab in a comment", format!("!\t\n{good}"), 2, 1),
        (
            "two closing directives",
            good.clone() + "!$omp end parallel do\n!$omp end parallel do\n",
            2,
            7,
        ),
        (
            "a comment after its line",
            good.replace("end do", "end do ! x"),
            2,
            5,
        ),
        ("copies of 0", good.replace("3*1", "3*1, 0*1"), 2, 2),
        ("copies with a sign", good.replace("3*1", "+3*1"), 2, 2),
        ("three extents", good.replace("a(3)", "a(1, 3, 1)"), 2, 1),
        ("a copy too many", good.replace("3*1", "4*1"), 3, 2),
        (
            "a copy too few of a grid",
            good.replace("a(3)", "a(2, 2)"),
            3,
            2,
        ),
        ("an extent of 0", good.replace("a(3)", "a(3, 0)"), 4, 1),
        ("a name twice", good.replace(", s", ", a"), 3, 1),
        (
            "a literal over its limit",
            good.replace("3*1", "3*2147483648"),
            4,
            2,
        ),
        ("nine processors", good.replace("(2)", "(9)"), 4, 3),
        (
            "3 before 2 of a later line",
            good.replace(", s", ", a").replace("end do", "end"),
            3,
            1,
        ),
    ];
    let lent = [0, 1, 70, 96, 97, 3000];
    let row = |name: &str, text: &str, number: u32, line: u32, room: usize| PrintRow {
        name: format!("{name}, {room} bytes lent"),
        text: text.into(),
        room,
        expected: Err((number, line)),
    };
    refused
        .iter()
        .flat_map(|(name, text, number, line)| {
            lent.map(|room| row(name, text, *number, *line, room))
        })
        .collect()
}
