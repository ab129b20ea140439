//! That calls give back what they take. It stands alone, since other tests take memory meanwhile.

use jsonpath_jp::{Document, Query};
use std::fs;
use std::num::NonZeroU64;

/// How many bytes of memory the process has.
fn resident() -> usize {
    let told = fs::read_to_string("/proc/self/statm").unwrap();
    4096 * told.split(' ').nth(1).unwrap().parse::<usize>().unwrap()
}

#[test]
fn a_million_calls_leave_nothing_behind() {
    let query = Query::parse("$.a[*]").unwrap();
    let few = Query::parse("$.a[*]").unwrap().with_limit(NonZeroU64::MIN);
    let bytes = format!("{{\"a\":[7{}]}}", ",8.95".repeat(1000));
    let document = Document::parse(bytes.as_bytes()).unwrap();
    let calls: [(usize, &dyn Fn()); 4] = [
        (900_000, &|| assert!(query.exists_in(&document).unwrap())),
        (50_000, &|| assert!(query.exists(b"{\"a\":[7]}").unwrap())),
        (25_000, &|| assert!(few.exists(b"{\"a\":[7]}").is_err())),
        // What is kept for an iterator that is left early is freed with it.
        (25_000, &|| {
            let first = query.find_iter(bytes.as_bytes()).unwrap().next();
            assert_eq!(first.unwrap().unwrap().value(), "7");
        }),
    ];
    for (count, call) in calls {
        (0..count / 10).for_each(|_| call());
        let before = resident();
        (0..count).for_each(|_| call());
        assert!(resident() < before + (2 << 20));
    }
}
