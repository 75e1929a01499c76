//! Tests of records, which call only what is public: lines of steps, and records beside what a replay writes (`iiif_records`); words of
//! steps, and lines that wait to be written into a file (`iiif_recorder`).

mod judge_tests;
mod line_tests;
mod recorder_tests;
mod word_tests;
