//! The public calls of kt_script on their happy paths, and random scripts beside a slow reading of them.
#![tactic(auto)]

#[cfg(test)]
mod random_scripts;
#[cfg(test)]
mod scripts;
