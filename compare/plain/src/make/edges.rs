//! Sound tables at the edges of 01's ranges.

use super::plan::Plan;
use super::tables::shared_name;
use crate::judge::{DESTINATION, MOVER, SOURCE};
use crate::tables::Mode;

/// Tables with 64 ports in 32 channels, sampling and queuing in turn, 16 partitions, one mover window.
pub fn full_tables() -> Vec<u8> {
    let mut plan = Plan::default();
    plan.all_windows();
    full_channels(&mut plan, |pair| pair % 2 == 0);
    plan.bytes()
}

/// 32 channels with one destination each, some of them sampling; queuing depths 1..8 in turn.
pub fn full_channels(plan: &mut Plan, sampling: impl Fn(usize) -> bool) {
    for pair in 0..32 {
        let depth = |shift: usize| Mode::Queuing(((pair / 2 + shift) % 8 + 1) as u32);
        if sampling(pair) {
            plan.joined(pair, Mode::Sampling(0), Mode::Sampling(20), 1);
        } else {
            plan.joined(pair, depth(0), depth(pair / 16), 1);
        }
    }
}

/// That many windows and nothing else: sound up to 64.
pub fn window_tables(windows: usize) -> Vec<u8> {
    edge(|plan| (0..windows).for_each(|window| plan.window(window as u8 % 16, 10)))
}

/// Sound tables at each edge, with what they show.
pub fn edge_tables() -> Vec<(&'static str, Vec<u8>)> {
    vec![
        ("one window", edge(|plan| plan.window(0, 1))),
        ("one mover window", edge(|plan| plan.window(MOVER, 10_000))),
        ("64 windows", edge(sixty_four_windows)),
        ("64 ports", edge(sixty_four_ports)),
        (
            "32 sampling channels",
            edge(|plan| windows_and_channels(plan, |_| true)),
        ),
        (
            "32 queuing channels",
            edge(|plan| windows_and_channels(plan, |_| false)),
        ),
        ("64 windows, 64 ports, 32 channels", edge(all_full)),
        ("8 destinations", edge(eight_destinations)),
        ("names sharing 29 bytes", edge(names_sharing)),
        ("names of 1, 29 and 30", edge(names_of_each_length)),
        ("same name, other owner", edge(same_name_other_owner)),
        ("both ends one owner", edge(both_ends_one_owner)),
        ("destination row first", edge(destination_first)),
        ("larger destination", edge(larger_destination)),
        ("least and most refresh", edge(refreshes)),
    ]
}

/// The bytes of a plan that a function fills.
fn edge(fill: impl Fn(&mut Plan)) -> Vec<u8> {
    let mut plan = Plan::default();
    fill(&mut plan);
    plan.bytes()
}

/// 64 windows, every fourth a mover window, lengths 1 and 10,000 in turn.
fn sixty_four_windows(plan: &mut Plan) {
    for window in 0..64 {
        let partition = if window % 4 == 3 { MOVER } else { window / 4 };
        plan.window(partition, if window % 2 == 0 { 1 } else { 10_000 });
    }
}

/// 64 queuing ports in no channel, largest messages 1..64, depths 1..8 in turn.
fn sixty_four_ports(plan: &mut Plan) {
    plan.all_windows();
    for place in 0..64 {
        let mode = Mode::Queuing(place % 8 + 1);
        let direction = (place % 2) as u8;
        let name = format!("PORT {place}");
        plan.port(place as u8 / 4, mode, direction, place + 1, name.as_bytes());
    }
}

/// A window for everybody, 64 ports, 32 channels.
fn windows_and_channels(plan: &mut Plan, sampling: impl Fn(usize) -> bool) {
    plan.all_windows();
    full_channels(plan, sampling);
}

/// As many windows, ports and channels as there may be.
fn all_full(plan: &mut Plan) {
    sixty_four_windows(plan);
    full_channels(plan, |pair| pair % 3 == 0);
}

/// Seven channels to eight readers each.
fn eight_destinations(plan: &mut Plan) {
    plan.all_windows();
    for owner in 0..7 {
        plan.joined(owner, Mode::Sampling(0), Mode::Sampling(10), 8);
    }
}

/// 32 ports of one owner whose names differ in the last byte only.
fn names_sharing(plan: &mut Plan) {
    plan.window(0, 3);
    plan.window(MOVER, 3);
    for last in 1..=32 {
        let mode = Mode::Queuing(2);
        let direction = last % 2;
        plan.port(0, mode, direction, 4, &shared_name(last));
    }
    plan.channel(1, &[0]);
}

/// Names that are the beginning of one another, of 1, 29 and 30 bytes.
fn names_of_each_length(plan: &mut Plan) {
    plan.window(0, 3);
    for length in [1, 29, 30] {
        plan.port(0, Mode::Sampling(0), SOURCE, 4, &vec![255; length]);
    }
}

/// Two ports of one name, joined.
fn same_name_other_owner(plan: &mut Plan) {
    plan.window(0, 3);
    plan.window(MOVER, 3);
    plan.window(1, 3);
    let from = plan.port(0, Mode::Queuing(3), SOURCE, 4, b"SKY");
    let to = plan.port(1, Mode::Queuing(3), DESTINATION, 4, b"SKY");
    plan.channel(from, &[to]);
}

/// A partition that sends samples to itself.
fn both_ends_one_owner(plan: &mut Plan) {
    plan.window(0, 3);
    plan.window(MOVER, 3);
    let from = plan.port(0, Mode::Sampling(0), SOURCE, 4, b"OUT");
    let to = plan.port(0, Mode::Sampling(6), DESTINATION, 4, b"IN");
    plan.channel(from, &[to]);
}

/// A destination with the lower id, and with less depth than its source.
fn destination_first(plan: &mut Plan) {
    plan.window(0, 3);
    plan.window(MOVER, 3);
    plan.window(1, 3);
    let to = plan.port(1, Mode::Queuing(1), DESTINATION, 4, b"IN");
    let from = plan.port(0, Mode::Queuing(8), SOURCE, 4, b"OUT");
    plan.channel(from, &[to]);
}

/// Largest messages 1 at the source and 64 at the destination.
fn larger_destination(plan: &mut Plan) {
    plan.window(0, 3);
    plan.window(MOVER, 3);
    let from = plan.port(0, Mode::Queuing(8), SOURCE, 1, b"OUT");
    let to = plan.port(0, Mode::Queuing(8), DESTINATION, 64, b"IN");
    plan.channel(from, &[to]);
}

/// Readers with refresh periods 1 and 1,000,000.
fn refreshes(plan: &mut Plan) {
    plan.window(0, 1);
    plan.window(MOVER, 10_000);
    let from = plan.port(0, Mode::Sampling(0), SOURCE, 64, b"OUT");
    let soon = plan.port(0, Mode::Sampling(1), DESTINATION, 64, b"SOON");
    let late = plan.port(0, Mode::Sampling(1_000_000), DESTINATION, 64, b"LATE");
    plan.channel(from, &[soon, late]);
}
