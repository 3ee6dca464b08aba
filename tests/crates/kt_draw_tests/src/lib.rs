//! Tests of the public calls of kt_story, kt_draw and kt_page.
#![tactic(auto)]

#[cfg(test)]
mod pages;
#[cfg(test)]
mod pictures;
#[cfg(test)]
mod scenes;
#[cfg(test)]
mod stories;
