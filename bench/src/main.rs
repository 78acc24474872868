//! The workloads of `tf_bench` in plain Rust, by the same words: `plain WORKLOAD COUNT SEED VALUE_SIZE` prints the
//! checksum and the nanoseconds that it took.

mod keys;
mod row;
mod scan;
mod table;
mod tree;

use keys::{Payload, Words};
use plain::{measure, Measured, Run};
use row::Wanted;
use std::env;
use std::process::ExitCode;
use table::Keys;

fn run<V: Payload>(workload: &str, run: Run) -> Option<Measured> {
    match workload {
        "tree_insert_rising" => Some(tree::insert_rising::<V>(run)),
        "tree_insert_random" => Some(tree::insert_random::<V>(run)),
        "tree_rounds" => Some(tree::rounds::<V>(run)),
        "tree_get_hit" => Some(tree::get_hit::<V>(run)),
        "tree_get_miss" => Some(tree::get_miss::<V>(run)),
        "tree_walk" => Some(tree::walk::<V>(run)),
        "tree_seek_up" => Some(tree::seek_up::<V>(run)),
        "tree_seek_down" => Some(tree::seek_down::<V>(run)),
        "tree_remove" => Some(tree::remove::<V>(run)),
        "table_seal" => Some(table::seal::<V>(run)),
        "table_merge_2_disjoint" => Some(table::merge::<V>(run, 2, Keys::Disjoint)),
        "table_merge_2_interleaved" => Some(table::merge::<V>(run, 2, Keys::Interleaved)),
        "table_merge_2_half_shared" => Some(table::merge::<V>(run, 2, Keys::HalfShared)),
        "table_merge_4_disjoint" => Some(table::merge::<V>(run, 4, Keys::Disjoint)),
        "table_merge_4_interleaved" => Some(table::merge::<V>(run, 4, Keys::Interleaved)),
        "table_merge_4_half_shared" => Some(table::merge::<V>(run, 4, Keys::HalfShared)),
        "table_find_hit" => Some(table::find_hit::<V>(run)),
        "table_find_miss_inside" => Some(table::find_miss_inside::<V>(run)),
        "table_find_miss_outside" => Some(table::find_miss_outside::<V>(run)),
        "table_seek_up" => Some(table::seek_up::<V>(run)),
        "table_seek_down" => Some(table::seek_down::<V>(run)),
        "log_push" => Some(table::push_log::<V>(run)),
        "log_seal" => Some(table::seal_log::<V>(run)),
        "row_find_hit_1" => Some(row::find(run, 1, Wanted::Hit)),
        "row_find_hit_8" => Some(row::find(run, 8, Wanted::Hit)),
        "row_find_hit_20" => Some(row::find(run, 20, Wanted::Hit)),
        "row_find_hit_64" => Some(row::find(run, 64, Wanted::Hit)),
        "row_find_miss_inside_1" => Some(row::find(run, 1, Wanted::MissInside)),
        "row_find_miss_inside_8" => Some(row::find(run, 8, Wanted::MissInside)),
        "row_find_miss_inside_20" => Some(row::find(run, 20, Wanted::MissInside)),
        "row_find_miss_inside_64" => Some(row::find(run, 64, Wanted::MissInside)),
        "row_find_miss_outside_20" => Some(row::find(run, 20, Wanted::MissOutside)),
        "row_copy" => Some(row::copy(run)),
        "row_install" => Some(row::install(run)),
        "scan_first_1" => Some(scan::first::<false>(run, 1)),
        "scan_first_8" => Some(scan::first::<false>(run, 8)),
        "scan_first_20" => Some(scan::first::<false>(run, 20)),
        "scan_all_1" => Some(scan::all::<false>(run, 1)),
        "scan_all_8" => Some(scan::all::<false>(run, 8)),
        "scan_all_20" => Some(scan::all::<false>(run, 20)),
        "scan_union" => Some(scan::union::<false>(run)),
        "scan_intersection" => Some(scan::intersection::<false>(run)),
        "scan_first_1_back" => Some(scan::first::<true>(run, 1)),
        "scan_first_8_back" => Some(scan::first::<true>(run, 8)),
        "scan_first_20_back" => Some(scan::first::<true>(run, 20)),
        "scan_all_1_back" => Some(scan::all::<true>(run, 1)),
        "scan_all_8_back" => Some(scan::all::<true>(run, 8)),
        "scan_all_20_back" => Some(scan::all::<true>(run, 20)),
        "scan_union_back" => Some(scan::union::<true>(run)),
        "scan_intersection_back" => Some(scan::intersection::<true>(run)),
        _ => None,
    }
}

fn answer() -> Option<Measured> {
    let words: Vec<String> = env::args().collect();
    let [_, workload, count, seed, value_size] = words.as_slice() else {
        return None;
    };
    let request = Run {
        count: count.parse().ok()?,
        seed: seed.parse().ok()?,
    };
    match value_size.as_str() {
        "0" => run::<()>(workload, request),
        "8" => run::<Words<1>>(workload, request),
        "16" => run::<Words<2>>(workload, request),
        "160" => run::<Words<20>>(workload, request),
        _ => None,
    }
}

fn main() -> ExitCode {
    match answer() {
        Some(measured) => {
            println!("{} {}", measured.checksum, measured.nanoseconds);
            ExitCode::SUCCESS
        }
        None => {
            eprintln!("usage: plain WORKLOAD COUNT SEED VALUE_SIZE");
            ExitCode::FAILURE
        }
    }
}
