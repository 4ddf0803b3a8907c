//! Tests of the reference model: the panel readings of document 01, its
//! refusals, the readings that settle its open points, and long seeded runs.

mod agreement;
mod bench;
mod boxes;
mod boxes_random;
mod cabinet;
mod calls;
mod clear;
mod data;
mod instructions;
mod missing;
mod numbering;
mod panel_pair;
mod panel_pair_random;
mod panel_readings;
mod parallel;
mod picture;
mod random;
mod refusals;
mod repaint;
mod second_picture;
mod serial;
mod time;
mod time_random;
