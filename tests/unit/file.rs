//! Tests of `iiif_source`, `iiif_fixity`, `iiif_tiff`, `iiif_tiff_read`, `iiif_tiff_write` and `iiif_open_files`, which call only what is
//! public: sources and their faults; files against digests, with each bit turned; files of many layouts, read and refused; heads and rows
//! of files that are written; files that are opened again, those that aren't what they were, and rows that are read ahead; what isn't a
//! plain file; and the same over files in memory, where each read fails in turn.

mod fixity_tests;
mod memory_tests;
mod open_files_tests;
mod plain_tests;
mod refused_tests;
mod rows_tests;
mod source_tests;
mod steps;
mod tiff_read_tests;
mod tiff_write_tests;
