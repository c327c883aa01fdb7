//! The program `morgnet`: its commands, and what it does when files are damaged, folders refuse, the disk
//! is full, or a run is stopped half-way. Whatever happens, every file is as it was or whole and new.

mod commands;
mod files;
mod folder;
mod shows;
mod stopped;
mod system;
