//! The archive's regrouping call, its listing, its deep operations and its feed beside a baseline in Rust: the same
//! answers, then times, instructions or stack.
mod archive;
mod baseline;
mod check;
mod damage;
mod operation;
#[allow(dead_code)]
#[path = "../../tests/src/random.rs"]
mod random;
mod side;
mod stack;
mod timing;
mod workload;

use operation::Lent;
use side::Side;
use workload::feed::FEEDS;
use workload::list::{named, WORKLOADS};
use workload::Made;

const USAGE: &str = "bench [--check | --stack | --list [deep | listing | feed] | --callgrind WORKLOAD SIDE CALLS]";

fn main() {
    let words: Vec<String> = std::env::args().skip(1).collect();
    let words: Vec<&str> = words.iter().map(String::as_str).collect();
    match words[..] {
        [] => {
            check::run();
            timing::report();
        }
        ["--check"] => check::run(),
        ["--stack"] => stack::report(),
        ["--list"] => WORKLOADS.iter().for_each(|workload| println!("{}", workload.name)),
        ["--list", "deep"] => timing::operation::names(true).iter().for_each(|name| println!("{name}")),
        ["--list", "listing"] => timing::operation::names(false).iter().for_each(|name| println!("{name}")),
        ["--list", "feed"] => FEEDS.iter().for_each(|feed| println!("{}", feed.name)),
        ["--callgrind", workload, side, calls] => callgrind(workload, side, calls),
        _ => panic!("{USAGE}"),
    }
}

/// One side of one workload, called so many times.
fn callgrind(workload: &str, side: &str, calls: &str) {
    let side = Side::named(side).expect("a side is archive or baseline");
    let calls = calls.parse().expect(USAGE);
    if let Some(workload) = named(workload) {
        timing::repeat(side, &workload.job(), &mut vec![0; 65_536], calls);
    } else if let Some(feed) = workload::feed::named(workload) {
        timing::feed::repeat(side, &feed.job(), &mut timing::feed::room(), calls);
    } else {
        let (operation, workload) = timing::operation::named(workload).expect("no such workload");
        timing::operation::repeat(operation, side, &workload.job(), &mut Lent::largest(), calls);
    }
}
