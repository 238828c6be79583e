//! The tool as a person runs it: as a process, with files, exit status and text compared.

mod apart;
mod check;
mod common;
mod docs;
mod figures;
mod fleet;
mod hex;
mod hostile;
mod join;
mod line;
mod links;
mod load;
mod make;
mod mark;
mod real;
mod replay;
mod scripts;
mod settings;
mod tags;
mod version;
mod why;
mod words;
