//! The bytes of checkpoints that look random, written by the tables of the format and by nothing of kt_ckpt.

use kt_draws::Draws;
use kt_tuple::{MAX_PLACES, MAX_SHARDS, MAX_WORKERS};
use std::alloc::{AllocError, Global};

/// The bytes of a checkpoint of a worker or a shard, with so many neighbours.
pub(crate) fn checkpoint(
    alloc: Global,
    draws: &mut Draws,
    worker: bool,
    peers: u8,
) -> Result<Vec<u8>, AllocError> {
    let mut out = Vec::new(alloc);
    out.extend_from_slice(b"KTCP")?;
    out.push(2)?;
    out.push(if worker { 1 } else { 2 })?;
    let node = draws.byte(1, if worker { MAX_WORKERS } else { MAX_SHARDS });
    out.push(node)?;
    let acts = draws.byte(0, 12);
    out.extend_from_slice(&[0, 0, 0, 0, 0, 0, 0, acts])?;
    out.push(peers)?;
    for _ in 0..peers {
        push_drawn(&mut out, draws, 32)?;
    }
    if worker {
        push_worker(&mut out, draws)?;
    } else {
        push_shard(&mut out, draws)?;
    }
    for _ in 0..acts {
        if worker {
            push_act_of_worker(&mut out, draws, node)?;
        } else {
            push_act_of_shard(&mut out, draws)?;
        }
    }
    Ok(out)
}

/// So many bytes of any value.
fn push_drawn(out: &mut Vec<u8>, draws: &mut Draws, count: u8) -> Result<(), AllocError> {
    for _ in 0..count {
        out.push(draws.byte(0, 255))?;
    }
    Ok(())
}

fn push_worker(out: &mut Vec<u8>, draws: &mut Draws) -> Result<(), AllocError> {
    out.push(0)?;
    out.push(draws.byte(0, 200))?;
    push_drawn(out, draws, 8)?;
    out.push(draws.byte(0, 1))?;
    let asked = draws.byte(0, 1);
    out.push(asked)?;
    if asked == 1 {
        push_op(out, draws)?;
    }
    let variables = draws.byte(0, 64);
    out.push(variables)?;
    for _ in 0..variables {
        push_value(out, draws)?;
    }
    Ok(())
}

fn push_shard(out: &mut Vec<u8>, draws: &mut Draws) -> Result<(), AllocError> {
    let tuples = draws.byte(0, 30);
    out.extend_from_slice(&[0, 0, 0, tuples])?;
    for _ in 0..tuples {
        push_tuple(out, draws)?;
    }
    push_entries(out, draws, false)?;
    push_entries(out, draws, true)
}

/// Requests of some of the workers, in rising order, with their answers or without.
fn push_entries(out: &mut Vec<u8>, draws: &mut Draws, answered: bool) -> Result<(), AllocError> {
    let workers = draws.byte(0, MAX_WORKERS);
    out.push(workers)?;
    let mut left = workers;
    for worker in 1..=MAX_WORKERS {
        // Of the workers from this one on so many are still to be chosen.
        if draws.byte(worker, MAX_WORKERS) > MAX_WORKERS.saturating_sub(left) {
            left = left.saturating_sub(1);
            out.push(worker)?;
            push_drawn(out, draws, 8)?;
            push_op(out, draws)?;
            if answered {
                push_answer(out, draws)?;
            }
        }
    }
    Ok(())
}

fn push_op(out: &mut Vec<u8>, draws: &mut Draws) -> Result<(), AllocError> {
    let code = draws.byte(1, 5);
    out.push(code)?;
    if code == 1 {
        return push_tuple(out, draws);
    }
    let places = draws.byte(1, MAX_PLACES as u8);
    out.push(places)?;
    for _ in 0..places {
        push_template_place(out, draws)?;
    }
    Ok(())
}

fn push_answer(out: &mut Vec<u8>, draws: &mut Draws) -> Result<(), AllocError> {
    let code = draws.byte(0, 2);
    out.push(code)?;
    if code == 1 {
        return push_tuple(out, draws);
    }
    Ok(())
}

fn push_tuple(out: &mut Vec<u8>, draws: &mut Draws) -> Result<(), AllocError> {
    let values = draws.byte(1, MAX_PLACES as u8);
    out.push(values)?;
    for _ in 0..values {
        push_value(out, draws)?;
    }
    Ok(())
}

fn push_template_place(out: &mut Vec<u8>, draws: &mut Draws) -> Result<(), AllocError> {
    match draws.byte(0, 5) {
        0 => Ok(out.push(0x81)?),
        1 => Ok(out.push(0x82)?),
        2 => Ok(out.push(0x83)?),
        _ => push_value(out, draws),
    }
}

fn push_value(out: &mut Vec<u8>, draws: &mut Draws) -> Result<(), AllocError> {
    let code = draws.byte(1, 3);
    out.push(code)?;
    if code == 1 {
        return push_drawn(out, draws, 8);
    }
    if code == 3 {
        return Ok(out.push(draws.byte(0, 1))?);
    }
    let characters = draws.byte(0, 64);
    out.push(characters)?;
    for _ in 0..characters {
        out.push(draws.byte(0x20, 0x7e))?;
    }
    Ok(())
}

/// A place in a log, counted from 1.
fn push_place_in_line(out: &mut Vec<u8>, draws: &mut Draws) -> Result<(), AllocError> {
    push_drawn(out, draws, 7)?;
    Ok(out.push(draws.byte(1, 255))?)
}

/// An act of the worker: it issues, repeats, accepts or ignores.
fn push_act_of_worker(out: &mut Vec<u8>, draws: &mut Draws, node: u8) -> Result<(), AllocError> {
    let heard = draws.byte(0, 1);
    let what = draws.byte(1, 2) + 5 * heard;
    out.extend_from_slice(&[what, node, heard])?;
    if heard == 1 {
        out.extend_from_slice(&[2, draws.byte(1, MAX_SHARDS)])?;
        push_place_in_line(out, draws)?;
    }
    push_drawn(out, draws, 8)?;
    push_op(out, draws)?;
    if heard == 1 {
        push_answer(out, draws)?;
    }
    Ok(())
}

/// An act of a shard: it hears, serves, answers again or ignores, and has heard of a worker each time.
fn push_act_of_shard(out: &mut Vec<u8>, draws: &mut Draws) -> Result<(), AllocError> {
    let (what, worker) = (draws.byte(0, 3), draws.byte(1, MAX_WORKERS));
    out.extend_from_slice(&[[3, 4, 5, 7][usize::from(what)], worker, 1, 1, worker])?;
    push_place_in_line(out, draws)?;
    push_drawn(out, draws, 8)?;
    push_op(out, draws)?;
    if what == 1 || what == 2 {
        push_answer(out, draws)?;
    }
    Ok(())
}
