//! The file of a loop: the coefficients of a plant and its controller.

use bazintroa::{LoopShaping, Refusal, TransferFn};

use crate::words::{counted, quoted};

/// The largest order of document 01.
const ORDER: usize = 8;

/// How the file is written, for the help of the commands that read it.
pub const FORM: &str = "\
The file names the coefficients of plant and controller, lowest power of 1/z first:

  plant.b = 0 0.06           # 0.06/z
  plant.a = -0.94            # 1 - 0.94/z
  controller.b = 0.8 -0.72
  controller.a = -1

Each is (b0 + b1/z + b2/z² ..) / (1 + a0/z + a1/z² ..): the first of a belongs to 1/z. Numbers have
a decimal point and are separated by blanks or by a comma followed by a blank, # begins a comment,
and without a line for a its numbers are 0. The order is the number of coefficients of the longer
list, at most 8. The file - is standard input.
";

/// Reads the lines of a file. The error names the line and what is wrong with it.
pub fn parse(text: &str) -> Result<LoopShaping, String> {
    let names = ["plant.b", "plant.a", "controller.b", "controller.a"];
    let mut lists: [Option<Vec<f64>>; 4] = Default::default();
    for (i, line) in text.lines().enumerate() {
        let line = line.split('#').next().unwrap_or("").trim();
        if line.is_empty() {
            continue;
        }
        let wrong = |what: String| format!("line {}: {what}", i + 1);
        let (name, numbers) = line
            .split_once('=')
            .ok_or_else(|| wrong("a name, = and numbers are needed".into()))?;
        let name = name.trim();
        let place = names.iter().position(|n| *n == name).ok_or_else(|| {
            wrong(format!(
                "{} is not plant.b, plant.a, controller.b or controller.a",
                quoted(name)
            ))
        })?;
        if lists[place].is_some() {
            return Err(wrong(format!("{name} is given twice")));
        }
        let numbers = coefficients(numbers).map_err(wrong)?;
        if numbers.len() > ORDER {
            return Err(wrong(format!(
                "{} has {}, and the order is at most 8 (refusal {})",
                name,
                counted(numbers.len(), "coefficient"),
                Refusal::WrongOrder.number()
            )));
        }
        lists[place] = Some(numbers);
    }
    let [plant_b, plant_a, controller_b, controller_a] = lists;
    Ok(LoopShaping {
        plant: transfer_fn(plant_b.ok_or("there is no line for plant.b")?, plant_a),
        controller: transfer_fn(
            controller_b.ok_or("there is no line for controller.b")?,
            controller_a,
        ),
    })
}

fn coefficients(text: &str) -> Result<Vec<f64>, String> {
    // A comma right before a digit may be a decimal comma.
    let digit_behind = |piece: &str| piece.starts_with(|c: char| c.is_ascii_digit());
    let mut words = text.split_whitespace();
    if let Some(word) = words.find(|word| word.split(',').skip(1).any(digit_behind)) {
        return Err(format!(
            "{} may be one number or two: a number has a decimal point, and numbers are separated by \
             blanks or by a comma followed by a blank",
            quoted(word)
        ));
    }
    let words = text.split(|c: char| c == ',' || c.is_whitespace());
    let words = words.filter(|word| !word.is_empty());
    let numbers: Result<Vec<f64>, String> = words
        .map(|word| match word.parse::<f64>() {
            Ok(x) if x.is_finite() => Ok(x),
            _ => Err(format!("{} is no finite number", quoted(word))),
        })
        .collect();
    match numbers? {
        numbers if numbers.is_empty() => Err("there is no number behind =".into()),
        numbers => Ok(numbers),
    }
}

fn transfer_fn(b: Vec<f64>, a: Option<Vec<f64>>) -> TransferFn {
    let a = a.unwrap_or_default();
    let mut tf = TransferFn {
        b: [0.0; ORDER],
        a: [0.0; ORDER],
        order: b.len().max(a.len()),
    };
    tf.b[..b.len()].copy_from_slice(&b);
    tf.a[..a.len()].copy_from_slice(&a);
    tf
}

/// Plant times controller, multiplied out. Coefficients 0 at the end, which would only add poles
/// at 0, are dropped. The error says why there is no such product.
pub fn open_loop(shaping: &LoopShaping) -> Result<TransferFn, String> {
    let LoopShaping { plant, controller } = shaping;
    let b = product(&plant.b[..plant.order], &controller.b[..controller.order]);
    let with_one = |tf: &TransferFn| {
        let mut list = vec![1.0];
        list.extend_from_slice(&tf.a[..tf.order]);
        list
    };
    let a = product(&with_one(plant), &with_one(controller));
    let used = |list: &[f64]| list.iter().rposition(|x| *x != 0.0).map_or(0, |i| i + 1);
    // a leads with 1, which no coefficient of the transfer function stands for.
    let order = used(&b).max(used(&a) - 1).max(1);
    if order > ORDER {
        return Err(format!(
            "plant times controller is of order {order}, above 8"
        ));
    }
    if b.iter().chain(&a).any(|x| !x.is_finite()) {
        return Err("a coefficient of plant times controller is too large for a number".into());
    }
    let mut tf = TransferFn {
        b: [0.0; ORDER],
        a: [0.0; ORDER],
        order,
    };
    for i in 0..order {
        tf.b[i] = b.get(i).copied().unwrap_or(0.0);
        tf.a[i] = a.get(i + 1).copied().unwrap_or(0.0);
    }
    Ok(tf)
}

fn product(p: &[f64], q: &[f64]) -> Vec<f64> {
    let mut out = vec![0.0; p.len() + q.len() - 1];
    for (i, x) in p.iter().enumerate() {
        for (j, y) in q.iter().enumerate() {
            out[i + j] += x * y;
        }
    }
    out
}

#[cfg(test)]
mod tests {
    use super::*;

    #[test]
    fn plant_times_controller() {
        let text = "plant.b = 0 2\nplant.a = -0.5\ncontroller.b = 3, -1.5\ncontroller.a = -1";
        let tf = open_loop(&parse(text).unwrap()).unwrap();
        assert_eq!(tf.order, 3);
        assert_eq!(tf.b, [0.0, 6.0, -3.0, 0.0, 0.0, 0.0, 0.0, 0.0]);
        assert_eq!(tf.a, [-1.5, 0.5, 0.0, 0.0, 0.0, 0.0, 0.0, 0.0]);
    }

    #[test]
    fn an_order_above_8() {
        let text = "plant.b = 1\nplant.a = 1 1 1 1 1\ncontroller.b = 1\ncontroller.a = 1 1 1 1";
        let error = open_loop(&parse(text).unwrap()).unwrap_err();
        assert_eq!(error, "plant times controller is of order 9, above 8");
        let text = "plant.b = 1\nplant.a = 1 1 1 1 1\ncontroller.b = 1\ncontroller.a = 1 1 1 0";
        assert_eq!(open_loop(&parse(text).unwrap()).unwrap().order, 8);
    }

    #[test]
    fn coefficients_that_are_all_zero() {
        let tf = open_loop(&parse("plant.b = 0\ncontroller.b = 0").unwrap()).unwrap();
        assert_eq!(tf.order, 1);
    }
}
