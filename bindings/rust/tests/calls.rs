//! What users of the crate see besides what bindings/rows.jsonl has. Expected values are by hand.

use jsonpath_jp::{
    version, Document, DocumentKind, Error, FindIter, Nodes, Numbers, OwnedNode, Profile, Queries,
    Query, QueryKind,
};
use std::num::NonZeroU64;
use std::thread;

const STORE: &str = r#"{"store":{"book":[
    {"category":"reference","author":"Nigel Rees","title":"Sayings","price":8},
    {"category":"fiction","author":"Evelyn Waugh","title":"Sword","price":12}],
    "bicycle":{"color":"red","price":399}}}"#;

/// RFC 9535, Figure 1.
const PRICES: &str = r#"{"store": {
    "book": [
        {"category": "reference", "author": "Nigel Rees", "title": "Sayings of the Century", "price": 8.95},
        {"category": "fiction", "author": "Evelyn Waugh", "title": "Sword of Honour", "price": 12.99},
        {"category": "fiction", "author": "Herman Melville", "title": "Moby Dick",
         "isbn": "0-553-21311-3", "price": 8.99},
        {"category": "fiction", "author": "J. R. R. Tolkien", "title": "The Lord of the Rings",
         "isbn": "0-395-19395-8", "price": 22.99}
    ],
    "bicycle": {"color": "red", "price": 399}
}}"#;

fn find(query: &str, document: &str) -> Result<Nodes, Error> {
    Query::parse(query)?.find(document.as_bytes())
}

fn find_with(query: &str, document: &str, numbers: Numbers) -> Result<Nodes, Error> {
    Query::parse_with(query, Profile::Standard, numbers)?.find(document.as_bytes())
}

/// A number of 39 digits, which is no decimal, and no whole number of 64 bits.
const TOO_MUCH: &str = "123456789012345678901234567890123456789";

fn paths(nodes: &Nodes) -> Vec<&str> {
    nodes.iter().map(|node| node.path()).collect()
}

fn steps(number: u64) -> NonZeroU64 {
    NonZeroU64::new(number).unwrap()
}

#[test]
fn what_nodes_are_asked() {
    let one = find("$.store.book[0].title", STORE).unwrap();
    assert_eq!(one.only(), one.first());
    let prices = find("$..price", STORE).unwrap();
    assert_eq!(
        (prices.len(), prices.only(), prices.is_empty()),
        (3, None, false)
    );
    assert_eq!(prices.first().unwrap().value(), "399");
    assert_eq!(
        format!("{:?}", find("$[1]", "[0,1]").unwrap()),
        "[Node { path: \"$[1]\", value: \"1\" }]"
    );
    let nothing = find("$.nothing", STORE).unwrap();
    assert!(nothing.is_empty() && nothing.iter().next().is_none() && nothing.first().is_none());
}

#[test]
fn a_text_longer_than_the_first_buffer() {
    let document = format!("[{}]", vec!["1234567"; 10_000].join(","));
    for answer in [find("$[*]", &document), kept("$[*]", &document)] {
        assert_eq!(answer.unwrap().len(), 10_000);
    }
    let long = format!("$['{}']", "a".repeat(5000));
    assert_eq!(Query::parse(&long).unwrap().canonical().unwrap(), long);
    for (number, numbers) in [
        ("1.5", Numbers::Whole),
        (TOO_MUCH, Numbers::Whole),
        (TOO_MUCH, Numbers::Decimal),
    ] {
        let document = format!("{{\"{}\":{number}}}", "a".repeat(5000));
        let Err(Error::Document(fault)) = find_with("$", &document, numbers) else {
            panic!("it is refused");
        };
        assert_eq!(fault.path().map(str::len), Some(5005));
    }
}

fn kept(query: &str, document: &str) -> Result<Nodes, Error> {
    Query::parse(query)?.find_in(&Document::parse(document.as_bytes())?)
}

#[test]
fn what_a_query_tells_of_itself() {
    let query: Query = "$ .a".parse().unwrap();
    assert_eq!((query.text(), query.to_string().as_str()), ("$ .a", "$ .a"));
    assert_eq!((query.profile(), query.limit()), (Profile::Standard, None));
    assert_eq!(query.numbers(), Numbers::Decimal);
    assert_eq!(query.canonical().unwrap(), "$['a']");
    let query = Query::parse_extended("$[?distinct(@.*)]")
        .unwrap()
        .with_limit(steps(100));
    assert_eq!(
        (query.profile(), query.limit()),
        (Profile::Extended, Some(steps(100)))
    );
    assert_eq!(paths(&query.find(br#"[{"a":0},{}]"#).unwrap()), ["$[0]"]);
    assert!(
        format!("{query:?}").starts_with("Query { text: \"$[?distinct(@.*)]\", profile: Extended")
    );
}

#[test]
fn a_refused_query() {
    let Err(Error::Query(fault)) = Query::parse("$[?@.é = 1]") else {
        panic!("it is refused")
    };
    assert_eq!(
        (fault.kind(), fault.place(), fault.query()),
        (QueryKind::Syntax, 9, "$[?@.é = 1]")
    );
    let sentence = fault.sentence().to_owned();
    assert_eq!(fault.suggestion(), Some("$[?@.é == 1]"));
    assert_eq!(
        fault.explanation(),
        format!("  $[?@.é = 1]\n          ^\n{sentence}\nTry: $[?@.é == 1]\n")
    );
    assert_eq!(
        Error::Query(fault).to_string(),
        format!("query refused: Syntax at 9: {sentence}")
    );
}

#[test]
fn lines_that_are_documents() {
    for (document, is_told) in [
        ("{\"a\":1}\n{\"a\":2}\n", true),
        ("1\r\n\r\n 2", true),
        ("\n[1, 2] \n[3]", true),
        ("1 2", false),
        ("[1,\n2]\n3", false),
        ("1\n]", true),
    ] {
        let fault = find("$", document).unwrap_err();
        let Error::Document(refused) = &fault else {
            panic!("{document}: {fault}")
        };
        assert_eq!(refused.reason(), "AfterValue");
        assert_eq!(refused.suggestion().is_some(), is_told, "{document}");
        assert_eq!(
            fault.to_string().contains("(JSON Lines)"),
            is_told,
            "{document}"
        );
    }
}

#[test]
fn pointers() {
    // The members of RFC 6901, section 5, and names with quotes, escapes and other characters, by its section 3.
    let document = r#"{"foo":["bar","baz"],"":0,"a/b":1,"c%d":2,"e^f":3,"g|h":4,"i\\j":5,"k\"l":6," ":7,"m~n":8,
        "~1":{"/0":9},"'\n\u0000":10,"é😀":{"0":11}}"#;
    let nodes = find("$..*", document).unwrap();
    let pointers: Vec<String> = nodes.iter().map(|node| node.pointer()).collect();
    let expected = [
        "/",
        "/ ",
        "/'\n\0",
        "/a~1b",
        "/c%d",
        "/e^f",
        "/foo",
        "/g|h",
        "/i\\j",
        "/k\"l",
        "/m~0n",
        "/~01",
        "/é😀",
        "/foo/0",
        "/foo/1",
        "/~01/~10",
        "/é😀/0",
    ];
    assert_eq!(pointers, expected);
    assert_eq!(find("$", "1").unwrap().only().unwrap().pointer(), "");
    let each = Query::parse("$.*").unwrap();
    let first = each.find_iter(b"[[1]]").unwrap().next().unwrap().unwrap();
    assert_eq!(first.pointer(), "/0");
}

#[test]
fn what_the_error_of_a_document_tells() {
    let too_much = format!("[\n 0.5, {TOO_MUCH}]");
    for (document, numbers, kind, told) in [
        (
            "{\"ä\":[1,\n2,]}",
            Numbers::Decimal,
            DocumentKind::NotJson,
            "document refused: NotJson: line 2, column 3: ",
        ),
        (
            "[2.5]",
            Numbers::Whole,
            DocumentKind::NotWhole,
            "document refused: NotWhole at $[0]: line 1, column 2: ",
        ),
        (
            &too_much,
            Numbers::Decimal,
            DocumentKind::NumberRange,
            "document refused: NumberRange at $[1]: line 2, column 7: ",
        ),
    ] {
        let error = find_with("$", document, numbers).unwrap_err();
        let read = Document::parse_with(document.as_bytes(), numbers);
        assert_eq!(read.unwrap_err(), error);
        let Error::Document(fault) = &error else {
            panic!("it is refused")
        };
        assert_eq!(fault.kind(), kind);
        assert_eq!(error.to_string(), format!("{told}{}", fault.sentence()));
    }
}

/// How many steps a query needs: one for each value that is offered and for the end, a segment's selectors and
/// two more at each value that is gone into, and each comparison. The first node comes before the end.
#[test]
fn one_node_after_another() {
    let query = Query::parse("$[*]").unwrap();
    for size in [0, 1, 2, 3, 4, 6, 7, 8, 100] {
        let numbers: Vec<_> = (0..size).map(|number| number.to_string()).collect();
        let text = format!("[{}]", numbers.join(","));
        let document = Document::parse(text.as_bytes()).unwrap();
        let expected = query.find(text.as_bytes()).unwrap();
        for nodes in [
            query.find_iter(text.as_bytes()).unwrap(),
            query.find_iter_in(&document),
        ] {
            let nodes: Vec<_> = nodes.map(Result::unwrap).collect();
            assert!(nodes.iter().map(OwnedNode::as_node).eq(&expected));
        }
    }
    let twice = Query::parse("$[0,0]").unwrap();
    let paths = twice
        .find_iter(b"[7]")
        .unwrap()
        .map(|node| node.unwrap().path().to_owned());
    assert_eq!(paths.collect::<Vec<_>>(), ["$[0]", "$[0]"]);
    assert!(matches!(query.find_iter(b"[1,"), Err(Error::Document(_))));
}

/// Why a document is refused is looked for once, however many queries are asked of it.
#[test]
fn one_refusal_of_many_queries() {
    let text = format!("[{}0,]", "0,".repeat(200_000));
    let time_of = |queries: usize| {
        let start = std::time::Instant::now();
        let answers = Queries::new(vec!["$..*"; queries]).find(text.as_bytes());
        assert_eq!(answers.len(), queries);
        for answer in &answers {
            let Err(Error::Document(fault)) = answer else {
                panic!("the document is no JSON")
            };
            assert_eq!((fault.line(), fault.column()), (1, 400_004));
        }
        start.elapsed()
    };
    let one = (0..3).map(|_| time_of(1)).max().unwrap();
    assert!(time_of(100) < 20 * one);
}

#[test]
fn the_first_of_a_million_nodes() {
    let text = format!("[{}0]", "0,".repeat(999_999));
    let all = Query::parse("$[*]").unwrap().with_limit(steps(1_000_000));
    assert_eq!(
        all.find(text.as_bytes()),
        Err(Error::StepsUsedUp(1_000_000))
    );
    let few = Query::parse("$[*]").unwrap().with_limit(steps(100));
    let mut nodes = few.find_iter(text.as_bytes()).unwrap();
    for at in 0..15 {
        assert_eq!(nodes.next().unwrap().unwrap().path(), format!("$[{at}]"));
    }
    // The pages get longer, and each has the whole limit. After an error there is no more.
    assert_eq!(nodes.find_map(Result::err), Some(Error::StepsUsedUp(100)));
    assert_eq!(nodes.next(), None);
}

#[test]
fn a_limit_that_suffices_and_one_less() {
    let document = Document::parse(b"[1,2]").unwrap();
    for (text, needed, for_the_first) in [("$[*]", 7, 5), ("$..*", 9, 5), ("$[?@==2]", 9, 8)] {
        let query = Query::parse(text).unwrap().with_limit(steps(needed));
        assert!(query.find(b"[1,2]").is_ok() && query.find_in(&document).is_ok());
        let query = query.with_limit(steps(needed - 1));
        for answer in [query.find(b"[1,2]"), query.find_in(&document)] {
            assert_eq!(answer, Err(Error::StepsUsedUp(needed - 1)));
        }
        let query = query.with_limit(steps(for_the_first));
        assert!(query.exists(b"[1,2]").unwrap() && query.exists_in(&document).unwrap());
        let query = query.with_limit(steps(for_the_first - 1));
        for answer in [query.exists(b"[1,2]"), query.exists_in(&document)] {
            assert_eq!(answer, Err(Error::StepsUsedUp(for_the_first - 1)));
        }
    }
    let answers = Queries::new(["$[*]", "$..*", "$[01]", "$[*]"])
        .with_limit(steps(8))
        .find(b"[1,2]");
    assert_eq!(answers[0], answers[3]);
    assert_eq!(answers[1], Err(Error::StepsUsedUp(8)));
    assert!(matches!(answers[2], Err(Error::Query(_))));
    assert_eq!(
        Error::StepsUsedUp(8).to_string(),
        "steps used up: the query needs more than 8"
    );
}

/// `$[0]`, a tab, 1 and a newline are seven bytes, and a path alone with its newline five.
#[test]
fn a_most_of_nodes_and_bytes_and_one_less() {
    let document = Document::parse(b"[1,2,3]").unwrap();
    let query = |text, nodes, bytes| {
        let query = Query::parse(text).unwrap();
        query
            .with_max_nodes(steps(nodes))
            .with_max_bytes(steps(bytes))
    };
    for (text, nodes, bytes, refusal) in [
        ("$[*]", 3, 21, None),
        ("$[*]", 3, 20, Some(Error::TooManyBytes(20))),
        ("$[*]", 2, 21, Some(Error::TooManyNodes(2))),
        ("$..[?@>1]", 2, 14, None),
        ("$..[?@>1]", 2, 13, Some(Error::TooManyBytes(13))),
        ("$..[?@>1]", 1, 14, Some(Error::TooManyNodes(1))),
        ("$[2]", 1, 7, None),
        ("$[2]", 1, 6, Some(Error::TooManyBytes(6))),
    ] {
        let expected = refusal.map_or(find(text, "[1,2,3]"), Err);
        let most = query(text, nodes, bytes);
        let many = Queries::new([text, "$[0]"])
            .with_max_nodes(most.max_nodes().unwrap())
            .with_max_bytes(most.max_bytes().unwrap())
            .find(b"[1,2,3]");
        assert_eq!(most.find(b"[1,2,3]"), expected, "{text}");
        assert_eq!(most.find_in(&document), expected, "{text}");
        assert_eq!(many[0], expected, "{text}");
    }
    let first = query("$[*]", 1, 7);
    for answer in [first.find_first(b"[1,2,3]"), first.find_first_in(&document)] {
        assert_eq!(answer.unwrap().len(), 1);
    }
    let first = query("$[*]", 1, 6);
    for answer in [first.find_first(b"[1,2,3]"), first.find_first_in(&document)] {
        assert_eq!(answer, Err(Error::TooManyBytes(6)));
    }
    for (bytes, expected) in [(5, Ok(true)), (4, Err(Error::TooManyBytes(4)))] {
        let any = query("$[*]", 1, bytes);
        assert_eq!(any.exists(b"[1,2,3]"), expected);
        assert_eq!(any.exists_in(&document), expected);
    }
    // Nodes that are looked for one after another are not counted.
    assert_eq!(
        first
            .find_iter(b"[1,2,3]")
            .unwrap()
            .filter(Result::is_ok)
            .count(),
        3
    );
}

#[test]
fn which_limit_is_told() {
    let most = |nodes, bytes| {
        let query = Query::parse("$[*]").unwrap().with_max_nodes(steps(nodes));
        query.with_max_bytes(steps(bytes)).find(b"[1,2,3]")
    };
    assert_eq!(most(1, 6), Err(Error::TooManyBytes(6)));
    assert_eq!(most(1, 7), Err(Error::TooManyNodes(1)));
    assert_eq!(most(2, 13), Err(Error::TooManyBytes(13)));
    assert_eq!(most(2, 14), Err(Error::TooManyNodes(2)));
    let none = Query::parse("$..*").unwrap().with_limit(steps(1));
    let none = none.with_max_nodes(steps(1)).with_max_bytes(steps(1));
    assert_eq!(none.find(b"[1,2,3]"), Err(Error::StepsUsedUp(1)));
    assert_eq!(
        Error::TooManyNodes(2).to_string(),
        "too many nodes: the query selects more than 2"
    );
    assert_eq!(
        Error::TooManyBytes(9).to_string(),
        "too many bytes: the answer has more than 9"
    );
}

#[test]
fn many_queries() {
    let texts = ["$.a[*]", "$.a[01]", "$.é", "", "$.b", "$.a"];
    let document = format!(r#"{{"a":[1,"{}"]}}"#, "é".repeat(5000));
    let answers = Queries::new(texts).find(document.as_bytes());
    assert_eq!(answers.len(), texts.len());
    for (text, answer) in texts.iter().zip(answers) {
        assert_eq!(answer, find(text, &document));
    }
    // The first four ask for some members of the document, all of them for more.
    let texts = ["$.a", "$.e[01]", "$.c[0].d", "$.b.a", "$..d", "$['b', 'x']"];
    let document = r#"{"a":1,"b":{"a":2,"c":3},"c":[{"d":4},{"e":5}],"d":6}"#;
    let values = [
        &["1"][..],
        &[],
        &["4"],
        &["2"],
        &["6", "4"],
        &[r#"{"a":2,"c":3}"#],
    ];
    for asked in [6, 4] {
        let answers = Queries::new(&texts[..asked]).find(document.as_bytes());
        assert_eq!(answers.len(), asked);
        for (answer, values) in answers.into_iter().zip(values) {
            match answer {
                Ok(nodes) => assert!(nodes
                    .iter()
                    .map(|node| node.value())
                    .eq(values.iter().copied())),
                Err(error) => assert!(values.is_empty() && matches!(error, Error::Query(_))),
            }
        }
    }
    assert!(Queries::new::<&str>([]).find(b"[").is_empty());
    let refused = Queries::new(["$[01]", "$"]).find(b"[1,]");
    assert!(matches!(
        refused[..],
        [Err(Error::Query(_)), Err(Error::Document(_))]
    ));
}

#[test]
fn threads() {
    fn is_shared<T: Send + Sync + 'static>() {}
    is_shared::<Query>();
    is_shared::<Document>();
    is_shared::<Queries>();
    is_shared::<Nodes>();
    is_shared::<OwnedNode>();
    is_shared::<FindIter<'static>>();
    is_shared::<Error>();

    let query = Query::parse("$[?@<8.95]").unwrap();
    let document = Document::parse(b"[8.94,1e-7,-8.95,8.95]").unwrap();
    thread::scope(|scope| {
        for _ in 0..4 {
            scope.spawn(|| {
                for _ in 0..500 {
                    assert_eq!(query.find_in(&document).unwrap().len(), 3);
                    assert_eq!(query.find(b"[8.9,8.95]").unwrap().len(), 1);
                }
            });
        }
    });
}

/// What is asked on a thread with so much stack.
fn on_little_stack<T: Send>(size: usize, ask: impl FnOnce() -> T + Send) -> T {
    thread::scope(|scope| {
        thread::Builder::new()
            .stack_size(size)
            .spawn_scoped(scope, ask)
            .unwrap()
            .join()
            .unwrap()
    })
}

#[test]
fn little_stack() {
    let deep = format!("${}{}", "[?@.a||@&&!@".repeat(128), "]".repeat(128));
    let nested = format!("{}{}", "[".repeat(126), "]".repeat(126));
    for (query, document) in [
        ("$.a", "{\"a\":1}"),
        ("$[?@<8.95]", "[8.94,1e-7,1e400]"),
        (&deep, &nested),
        (&"$[?@".repeat(200), "[1]"),
        ("$", &nested),
    ] {
        let expected = (find(query, document), kept(query, document));
        for size in [64 << 10, 128 << 10, 256 << 10, 512 << 10, 1 << 20] {
            assert_eq!(
                on_little_stack(size, || (find(query, document), kept(query, document))),
                expected
            );
            assert_eq!(
                on_little_stack(size, || Queries::new([query])
                    .find(document.as_bytes())
                    .pop()
                    .unwrap()),
                expected.0
            );
        }
    }
    // What a thread with room keeps is freed by one with little.
    let query = Query::parse(&deep).unwrap();
    on_little_stack(64 << 10, move || drop(query));
}

/// How many nodes of Figure 1 of RFC 9535 cost less than ten, by each way to ask; as whole numbers its first price is
/// refused, in the order of its text.
#[test]
fn decimals_are_the_default() {
    let cheap = Query::parse("$..book[?@.price<10].title").unwrap();
    let titles = ["\"Sayings of the Century\"", "\"Moby Dick\""];
    let document = Document::parse(PRICES.as_bytes()).unwrap();
    let many = Queries::new([cheap.text()]).find(PRICES.as_bytes());
    for nodes in [
        cheap.find(PRICES.as_bytes()).unwrap(),
        cheap.find_in(&document).unwrap(),
        many[0].clone().unwrap(),
    ] {
        assert!(nodes.iter().map(|node| node.value()).eq(titles));
    }
    for nodes in [
        cheap.find_iter(PRICES.as_bytes()).unwrap(),
        cheap.find_iter_in(&document),
    ] {
        let nodes: Vec<_> = nodes.map(Result::unwrap).collect();
        assert!(nodes.iter().map(|node| node.value()).eq(titles));
    }
    assert!(cheap.exists(PRICES.as_bytes()).unwrap() && cheap.exists_in(&document).unwrap());
    let whole = Query::parse_with(cheap.text(), Profile::Standard, Numbers::Whole).unwrap();
    let refused = Document::parse_with(PRICES.as_bytes(), Numbers::Whole).unwrap_err();
    let Error::Document(fault) = &refused else {
        panic!("{refused}")
    };
    assert_eq!(
        (fault.kind(), fault.path()),
        (
            DocumentKind::NotWhole,
            Some("$['store']['book'][0]['price']")
        )
    );
    assert_eq!(whole.find(PRICES.as_bytes()), Err(refused.clone()));
    assert_eq!(whole.exists(PRICES.as_bytes()), Err(refused.clone()));
    assert!(matches!(whole.find_iter(PRICES.as_bytes()), Err(fault) if fault == refused));
    let many = Queries::new([whole.text()]).with_numbers(Numbers::Whole);
    assert_eq!(many.find(PRICES.as_bytes()), [Err(refused)]);
}

#[test]
fn functions_and_numbers_are_chosen_apart() {
    let text = "$[?count(distinct(@['a','a']))==1 && @.a<8.95]";
    let document = br#"[{"a":8.94},{"a":8.95}]"#;
    let query = Query::parse_extended(text).unwrap();
    assert_eq!(
        (query.profile(), query.numbers()),
        (Profile::Extended, Numbers::Decimal)
    );
    assert_eq!(paths(&query.find(document).unwrap()), ["$[0]"]);
    let many = Queries::with_profile([text], Profile::Extended).find(document);
    assert_eq!(paths(many[0].as_ref().unwrap()), ["$[0]"]);
    for (profile, numbers, kind, place) in [
        (
            Profile::Standard,
            Numbers::Decimal,
            QueryKind::UnknownFunction,
            9,
        ),
        (
            Profile::Standard,
            Numbers::Whole,
            QueryKind::UnknownFunction,
            9,
        ),
        (Profile::Extended, Numbers::Whole, QueryKind::NotWhole, 41),
    ] {
        let Err(Error::Query(fault)) = Query::parse_with(text, profile, numbers) else {
            panic!("it is refused")
        };
        assert_eq!((fault.kind(), fault.place()), (kind, place));
        assert!(!fault.sentence().is_empty());
    }
    let of_range = format!("$[?@<{TOO_MUCH}]");
    let Err(Error::Query(fault)) = Query::parse(&of_range) else {
        panic!("it is refused")
    };
    assert_eq!((fault.kind(), fault.place()), (QueryKind::NumberRange, 5));
    assert_eq!(
        Query::parse("$[?@==8.950]").unwrap().canonical().unwrap(),
        "$[?@==8.95]"
    );
}

#[test]
fn a_document_of_other_numbers() {
    for (asked, read, named) in [
        (Numbers::Decimal, Numbers::Whole, "whole numbers"),
        (Numbers::Whole, Numbers::Decimal, "decimals"),
    ] {
        let document = Document::parse_with(b"[1,2]", read).unwrap();
        assert_eq!(document.numbers(), read);
        for profile in [Profile::Standard, Profile::Extended] {
            let query = Query::parse_with("$[*]", profile, asked).unwrap();
            let refused = Error::OtherNumbers(read);
            assert_eq!(query.find_in(&document), Err(refused.clone()));
            assert_eq!(query.find_first_in(&document), Err(refused.clone()));
            assert_eq!(query.exists_in(&document), Err(refused.clone()));
            let mut nodes = query.find_iter_in(&document);
            assert_eq!(nodes.next(), Some(Err(refused.clone())));
            assert_eq!(nodes.next(), None);
            assert_eq!(
                refused.to_string(),
                format!(
                    "other numbers: the document was read with {named}, which the query has not: read one of them \
                     with the numbers of the other, by Document::parse_with or Query::parse_with"
                )
            );
            // Both are kept, and asked of what has the same numbers.
            let same = Query::parse_with("$[*]", profile, read).unwrap();
            assert_eq!(same.find_in(&document).unwrap().len(), 2);
            assert_eq!(query.find(b"[1,2]").unwrap().len(), 2);
        }
    }
}

/// Texts of numbers by RFC 8785, section 3.2.2.3, and whole ones and doubles by arithmetic.
#[test]
fn values_of_numbers() {
    let largest = "170141183460469231731687303715884105727";
    let power = 10_i128.pow(37);
    for (written, text, whole, double, near) in [
        ("8.950", "8.95", None, Some(8.95), 8.95),
        ("-0.10", "-0.1", None, Some(-0.1), -0.1),
        ("1.0", "1", Some(1), Some(1.0), 1.0),
        ("-0.0", "0", Some(0), Some(0.0), 0.0),
        ("0e7", "0", Some(0), Some(0.0), 0.0),
        ("1e2", "100", Some(100), Some(100.0), 100.0),
        ("-25e-1", "-2.5", None, Some(-2.5), -2.5),
        (
            "1e20",
            "100000000000000000000",
            Some(10_i128.pow(20)),
            Some(1e20),
            1e20,
        ),
        ("1e21", "1e+21", Some(10_i128.pow(21)), Some(1e21), 1e21),
        (
            "-12e36",
            "-1.2e+37",
            Some(-12 * power / 10),
            Some(-1.2e37),
            -1.2e37,
        ),
        ("17e37", "1.7e+38", Some(17 * power), Some(1.7e38), 1.7e38),
        ("18e37", "1.8e+38", None, Some(1.8e38), 1.8e38),
        ("1e400", "1e+400", None, None, f64::INFINITY),
        ("-1e400", "-1e+400", None, None, f64::NEG_INFINITY),
        ("1e-400", "1e-400", None, None, 0.0),
        ("0.0000001", "1e-7", None, Some(1e-7), 1e-7),
        ("0.000001", "0.000001", None, Some(1e-6), 1e-6),
        (
            "9007199254740993",
            "9007199254740993",
            Some(9007199254740993),
            None,
            9007199254740992.0,
        ),
        (
            "18446744073709551615",
            "18446744073709551615",
            Some(u64::MAX as i128),
            None,
            18446744073709551616.0,
        ),
        // The double is 0.1000000000000000055.., whose shortest text is 0.1.
        (
            "0.10000000000000000555",
            "0.10000000000000000555",
            None,
            None,
            0.1,
        ),
        (
            "12345678901234567890123456789012345678",
            "1.2345678901234567890123456789012345678e+37",
            Some(12345678901234567890123456789012345678),
            None,
            1.2345678901234568e37,
        ),
    ] {
        let document = format!("[{written}]");
        let query = Query::parse("$[*]").unwrap();
        let nodes = query.find(document.as_bytes()).unwrap();
        let node = nodes.only().unwrap();
        assert_eq!(node.value(), text);
        let values = (node.as_i128(), node.as_f64(), node.as_f64_lossy());
        assert_eq!(values, (whole, double, Some(near)), "{written}");
        let next = query.find_iter(document.as_bytes()).unwrap().next();
        let own = next.unwrap().unwrap();
        assert_eq!((own.as_i128(), own.as_f64(), own.as_f64_lossy()), values);
    }
    let none = r#"["8.95","1e5","inf",null,true,[1],{"a":1},"",[]]"#;
    for node in &find("$[*]", none).unwrap() {
        assert_eq!(
            (node.as_i128(), node.as_f64(), node.as_f64_lossy()),
            (None, None, None)
        );
    }
    // The largest of 128 bits has 39 digits, and so is no decimal.
    assert!(find("$", largest).is_err());
}

/// What is no JSON is none with decimals either.
#[test]
fn numbers_that_are_no_json() {
    for text in [
        "NaN",
        "Infinity",
        "-Infinity",
        ".5",
        "1.",
        "+1",
        "01",
        "0x1",
        "1e",
        "-",
    ] {
        for numbers in [Numbers::Decimal, Numbers::Whole] {
            let Err(Error::Document(fault)) = find_with("$", &format!("[{text}]"), numbers) else {
                panic!("it is refused")
            };
            assert_eq!(fault.kind(), DocumentKind::NotJson, "{text}");
            assert!(!fault.sentence().is_empty(), "{text}");
        }
    }
}

/// Limits with decimals: `$[0]`, a tab, 1.5 and a newline are nine bytes, and steps are those of whole numbers.
#[test]
fn limits_with_decimals() {
    let document = Document::parse(b"[1.5,2.5,3.5]").unwrap();
    let all = || Query::parse("$[*]").unwrap();
    let most = all().with_max_nodes(steps(3)).with_max_bytes(steps(27));
    assert_eq!(most.find_in(&document).unwrap().len(), 3);
    assert_eq!(
        all().with_max_bytes(steps(26)).find(b"[1.5,2.5,3.5]"),
        Err(Error::TooManyBytes(26))
    );
    assert_eq!(
        all().with_max_nodes(steps(2)).find_in(&document),
        Err(Error::TooManyNodes(2))
    );
    for (needed, refusal) in [(9, None), (8, Some(Error::StepsUsedUp(8)))] {
        let query = Query::parse("$[?@==2.5]").unwrap();
        let answer = query.with_limit(steps(needed)).find(b"[1.5,2.5]");
        assert_eq!(answer.err(), refusal);
    }
}

#[test]
fn the_version() {
    assert_eq!(version(), env!("CARGO_PKG_VERSION"));
}
