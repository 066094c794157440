"""The faults that harness/oracle/wrong puts into the oracle, one at a time.

A fault is a change of text in one file: standins.rs, a source that make_oracle.py has made (sources/..) or a file of
harness/calls (calls/..). The old text stands there once; where it stands more often, `nth` says which. A fault that no call can
show has the reason why, and is tried all the same.
"""
import math
import re
import struct
import sys
from collections import namedtuple

Fault = namedtuple("Fault", "file what old new nth reason")


def as_rust(x):
    """A binary64 as a constant of Rust, by its bits."""
    return f"f64::from_bits(0x{struct.unpack('>Q', struct.pack('>d', x))[0]:016X})"


def below(x):
    return math.nextafter(x, -math.inf)


def above(x):
    return math.nextafter(x, math.inf)


def listed(file, rows):
    """Faults of one file, each as (what, old, new) with nth and reason where they are needed."""
    for what, old, new, *more in rows:
        given = more[0] if more else {}
        yield Fault(file, what, old, new, given.get("nth"), given.get("reason", ""))


def because(reason):
    return {"reason": reason}


def nth(n):
    return {"nth": n}


NAN = because("a NaN goes through what follows and comes out as a NaN, whose bits mean nothing")
SAME_PRODUCT = because("a product of two numbers is the same either way round")
FINITE = because("no call that the table lets pass gives a NaN or an infinity there")
BUILT = because("the particle that is built of it asks it, and answers the same number")
SAME_LEAST = because("of two numbers the smaller has the smaller product, rounded too")
FIRST_STEP = because("a first step is always made, and answers the same number with no row written")

TERM = "a = 1.0 + (a * y) / f64::from(k);"
RESULT = "f64::from(k) * LN_2 + (2.0 * s) * a"
ROOT = "ln(a + (a * a + 1.0).sqrt()).copysign(x)"
SMALL = "x.abs() < 0.0009765625"
SERIES = "x * (1.0 - (x * x) / 6.0)"

STANDINS = [
    ("E: a NaN is not looked for", "    if t.is_nan() {\n        return t;\n    }\n", "", NAN),
    ("E: 709 gives infinity", "t > 709.0", "t >= 709.0"),
    ("E: the number after 709 gives none", "t > 709.0", "t > " + as_rust(above(709.0))),
    ("E: infinity only above 710", "t > 709.0", "t > 710.0"),
    ("E: the largest number for infinity", "return f64::INFINITY;", "return f64::MAX;"),
    ("E: -708 gives 0", "t < -708.0", "t <= -708.0"),
    ("E: the number before -708 gives none", "t < -708.0", "t < " + as_rust(below(-708.0))),
    ("E: 0 only below -709", "t < -708.0", "t < -709.0"),
    ("E: -0 below -708", "return 0.0;", "return -0.0;"),
    ("E: t/512", "t / 1024.0", "t / 512.0"),
    ("E: t/2048", "t / 1024.0", "t / 2048.0"),
    ("E: a = 0 at first", "let mut a = 1.0;", "let mut a = 0.0;"),
    ("E: 17 terms", "(1..=18).rev()", "(1..=17).rev()"),
    ("E: 19 terms", "(1..=18).rev()", "(1..=19).rev()"),
    ("E: without the last term", "(1..=18).rev()", "(2..=18).rev()"),
    ("E: terms the other way round", "(1..=18).rev()", "1..=18"),
    ("E: a*(y/k)", TERM, "a = 1.0 + a * (y / f64::from(k));"),
    ("E: (a/k)*y", TERM, "a = 1.0 + (a / f64::from(k)) * y;"),
    ("E: 1 - (a*y)/k", TERM, "a = 1.0 - (a * y) / f64::from(k);"),
    ("E: squared nine times", "0..10", "0..9"),
    ("E: squared eleven times", "0..10", "0..11"),
    ("E: the last digit wrong above 1e300", "    a\n}", "    if a > 1e300 && a < f64::INFINITY { a.next_up() } else { a }\n}"),
    ("E: the last digit wrong below 1e-300", "    a\n}", "    if a < 1e-300 { a.next_up() } else { a }\n}"),
    ("L: c one binary64 larger", "0x3FE6_2E42_FEFA_39EF", "0x3FE6_2E42_FEFA_39F0"),
    ("L: c one binary64 smaller", "0x3FE6_2E42_FEFA_39EF", "0x3FE6_2E42_FEFA_39EE"),
    ("L: a NaN is not looked for", "x.is_nan() || x < 0.0", "x < 0.0"),
    ("L: below zero is not looked for", "x.is_nan() || x < 0.0", "x.is_nan()"),
    ("L: -0 gives a NaN", "x.is_nan() || x < 0.0", "x.is_nan() || x.is_sign_negative()"),
    ("L: +infinity at zero", "return f64::NEG_INFINITY;", "return f64::INFINITY;"),
    ("L: infinity is not looked for", "    if x == f64::INFINITY {\n        return x;\n    }\n", ""),
    ("L: 1.5 is not halved", "m >= 1.5", "m > 1.5"),
    ("L: the number before 1.5 is halved", "m >= 1.5", "m >= " + as_rust(below(1.5))),
    ("L: halved from the root of 2 on", "m >= 1.5", "m >= std::f64::consts::SQRT_2"),
    ("L: m is not halved", "        m /= 2.0;\n", ""),
    ("L: k is not raised", "        k += 1;\n", ""),
    ("L: k is lowered", "k += 1;", "k -= 1;"),
    ("L: a subnormal's k one too high", "-1022 - shift as i32", "-1021 - shift as i32"),
    ("L: subnormals taken as normal", "exponent == 0", "exponent == -1"),
    ("L: a normal number's k one too low", "exponent - 1023)", "exponent - 1024)"),
    ("L: (m + 1)/(m - 1)", "(m - 1.0) / (m + 1.0)", "(m + 1.0) / (m - 1.0)"),
    ("L: (1 - m)/(m + 1)", "(m - 1.0) / (m + 1.0)", "(1.0 - m) / (m + 1.0)"),
    ("L: a = 1/21 at first", "1.0 / 23.0", "1.0 / 21.0"),
    ("L: a = 1/25 at first", "1.0 / 23.0", "1.0 / 25.0"),
    ("L: a = 0 at first", "1.0 / 23.0", "0.0"),
    ("L: d from 19", "(1..=21).rev()", "(1..=19).rev()"),
    ("L: a term more, 1/25", "let mut a = 1.0 / 23.0;", "let mut a = 1.0 / 23.0 + q * (1.0 / 25.0);"),
    ("L: d down to 3", "(1..=21).rev()", "(3..=21).rev()"),
    ("L: d the other way round", "(1..=21).rev().step_by(2)", "(1..=21).step_by(2)"),
    ("L: every d", ".step_by(2)", ""),
    ("L: 1/d - q*a", "/ f64::from(d) + q * a", "/ f64::from(d) - q * a"),
    ("L: q*a + 1/d rounded once", "1.0 / f64::from(d) + q * a", "q.mul_add(a, 1.0 / f64::from(d))"),
    ("L: q = s", "let q = s * s;", "let q = s;"),
    ("L: k*c - (2*s)*a", RESULT, "f64::from(k) * LN_2 - (2.0 * s) * a"),
    ("L: s*a, not doubled", RESULT, "f64::from(k) * LN_2 + s * a"),
    ("L: 2*(s*a)", RESULT, "f64::from(k) * LN_2 + 2.0 * (s * a)", because("doubling is exact, and s*a is no subnormal")),
    ("L: k*c + .. rounded once", RESULT, "f64::from(k).mul_add(LN_2, (2.0 * s) * a)"),
    ("L: .. + (2*s)*a rounded once", RESULT, "(2.0 * s).mul_add(a, f64::from(k) * LN_2)"),
    ("H: a NaN is not looked for", "    if x.is_nan() {\n        return x;\n    }\n", "", NAN),
    ("H: x for its size", "let a = x.abs();", "let a = x;"),
    ("H: without the sign", ROOT, "ln(a + (a * a + 1.0).sqrt())"),
    ("H: the other sign", ROOT, "-ln(a + (a * a + 1.0).sqrt()).copysign(x)"),
    ("H: a*a - 1", ROOT, "ln(a + (a * a - 1.0).sqrt()).copysign(x)"),
    ("H: a*a + 1 rounded once", ROOT, "ln(a + a.mul_add(a, 1.0).sqrt()).copysign(x)"),
    ("H: the root minus a", ROOT, "ln((a * a + 1.0).sqrt() - a).copysign(x)"),
    ("H: powf(0.5) for the root", ROOT, "ln(a + powf(a * a + 1.0, 0.5)).copysign(x)"),
    ("H: 2^-10 by the series", SMALL, "x.abs() <= 0.0009765625"),
    ("H: the number before 2^-10 by L", SMALL, "x.abs() < " + as_rust(below(2.0**-10))),
    ("H: the series up to 0.001", SMALL, "x.abs() < 0.001"),
    ("H: the series up to 2^-9", SMALL, "x.abs() < 0.001953125"),
    ("H: the series up to 2^-11", SMALL, "x.abs() < 0.00048828125"),
    ("H: the series for all x below 2^-10", SMALL, "x < 0.0009765625"),
    ("H: the series for x above 0 alone", SMALL, "x > 0.0 && x < 0.0009765625"),
    ("H: without the series", SMALL, "x.abs() < 0.0"),
    ("H: x - x^3/6", SERIES, "x - x * (x * x) / 6.0"),
    ("H: x*(1 - x*(x/6))", SERIES, "x * (1.0 - x * (x / 6.0))"),
    ("H: (x*x)*(1/6)", SERIES, "x * (1.0 - (x * x) * (1.0 / 6.0))"),
    ("H: 1 - (x*x)/6 rounded once", SERIES, "x * (-x).mul_add(x / 6.0, 1.0)"),
    ("H: x*(1 + (x*x)/6)", SERIES, "x * (1.0 + (x * x) / 6.0)"),
    ("H: x*(1 - (x*x)/3)", SERIES, "x * (1.0 - (x * x) / 3.0)"),
    ("H: a third term", SERIES, "x * (1.0 - (x * x) / 6.0 * (1.0 - 0.45 * (x * x)))"),
    ("H: x alone", SERIES, "x"),
    ("H: the series without the sign", SERIES, "x.abs() * (1.0 - (x * x) / 6.0)"),
    ("H: the series with the other sign", SERIES, "-x * (1.0 - (x * x) / 6.0)"),
    ("H: +0 at -0", SERIES, "x * (1.0 - (x * x) / 6.0) + 0.0"),
    ("powf: the root for 0.5", "exp(b * ln(x))", "if b == 0.5 { x.sqrt() } else { exp(b * ln(x)) }"),
    ("powf: 1 for the power 0", "exp(b * ln(x))", "if b == 0.0 { 1.0 } else { exp(b * ln(x)) }"),
    ("powf: E(-b*L(x))", "exp(b * ln(x))", "exp(-b * ln(x))"),
    ("power 2: x", "2 => x * x,", "2 => x,"),
    ("power 3: (x*x)*x", "3 => x * (x * x)", "3 => (x * x) * x", SAME_PRODUCT),
    ("power 3: x*x", "3 => x * (x * x)", "3 => x * x"),
    ("power 4: x*(x*(x*x))", "4 => (x * x) * (x * x)", "4 => x * (x * (x * x))"),
    ("the machine's exp", "        exp(self)", "        self.exp()"),
    ("the machine's ln", "        ln(self)", "        self.ln()"),
    ("the machine's powf", "        powf(self, b)", "        self.powf(b)"),
    ("the machine's asinh", "        asinh(self)", "        self.asinh()"),
]

# the reference temperature: what stands in the formulas, and what may be taken for it
EXPONENT = "(1.0 / self.t_ref - 1.0 / temp_k)"


def reference(rate, n=None):
    """Wrong reference temperatures in one formula, the n-th of its file."""
    where = nth(n) if n else {}
    gas = "const R_GAS: f64 = 8.314;"
    return [
        (f"{rate}: 298.15 for t_ref", EXPONENT, EXPONENT.replace("self.t_ref", "298.15"), where),
        (f"{rate}: 1/T - 1/t_ref", EXPONENT, "(1.0 / temp_k - 1.0 / self.t_ref)", where),
        (f"{rate}: t_ref for T too", EXPONENT, EXPONENT.replace("temp_k", "self.t_ref"), where),
        (f"{rate}: (T - t_ref)/(t_ref*T)", EXPONENT, "((temp_k - self.t_ref) / (self.t_ref * temp_k))", where),
        (f"{rate}: not corrected at 298.15", gas, f"{gas} if temp_k == 298.15 {{ return self.{rate}_ref; }}", where),
        (f"{rate}: not corrected within 1 K of t_ref", gas, f"{gas} if (temp_k - self.t_ref).abs() < 1.0 {{ return self.{rate}_ref; }}", where),
    ]


# ---- the Rust: each node loop later and earlier, what stands at the ends, the roots, floors and clamps

NO_NODE_0 = because("the node's radius is 0, so its term is +0")
SKIPPED = because("the loop passes over that node anyway")
UNREAD = because("that entry is not read again")
NO_I0 = because("an exchange current of 0 and one that is a NaN are both not above 1e-30")

STABILITY_LIMIT = "0.5 * self.dr * self.dr / d_s"
AT_298 = "let d_s = ElectrodeParams { t_ref: 298.15, ..self.params.clone() }.d_s(temp_k);"

ELECTRODE = [
    ("c_avg: from node 1", "for i in 0..n {", "for i in 1..n {", NO_NODE_0),
    ("c_avg: without the surface", "for i in 0..n {", "for i in 0..n - 1 {"),
    ("c_avg: the surface weighs 2 or 4", "if i == 0 || i == n - 1 {", "if i == 0 {"),
    ("c_avg: the centre weighs 2", "if i == 0 || i == n - 1 {", "if i == n - 1 {", NO_NODE_0),
    ("c_avg: 2 and 4 exchanged", "i % 2 == 0", "i % 2 == 1"),
    ("c_avg: 2 and 4 counted from the surface", "i % 2 == 0", "(n - 1 - i) % 2 == 0"),
    ("c_avg: the first inner place weighs 2", "i % 2 == 0", "i % 2 == 0 || i == 1"),
    ("c_avg: the last inner place of 64 weighs 4", "i % 2 == 0", "i % 2 == 0 && i != 62"),
    ("step: inner nodes from 2", "for i in 1..n - 1 {", "for i in 2..n - 1 {"),
    ("step: inner nodes without the last", "for i in 1..n - 1 {", "for i in 1..n - 2 {"),
    ("step: the centre does not change", "dc[0] = 6.0 * d_s", "dc[0] = 0.0 * d_s"),
    ("step: the surface does not change", "dc[n - 1] = d_s * (d2c + 2.0 / r_surf * dc_dr_surf);", "let _ = (d2c, dc_dr_surf, r_surf);"),
    ("step: the update from node 1", "self.c_s.iter_mut().zip(dc.iter())", "self.c_s.iter_mut().zip(dc.iter()).skip(1)"),
    ("step: the update without the surface", "self.c_s.iter_mut().zip(dc.iter())", "self.c_s.iter_mut().zip(dc.iter()).take(n - 1)"),
    ("step: not clamped below", ".clamp(c_min, c_max)", ".min(c_max)"),
    ("step: not clamped above", ".clamp(c_min, c_max)", ".max(c_min)"),
    ("step: -0 clamped to +0", ".clamp(c_min, c_max)", ".clamp(c_min, c_max) + 0.0"),
    ("ocp: from 0.011", "theta.clamp(0.01, 0.99)", "theta.clamp(0.011, 0.99)"),
    ("ocp: up to 0.98", "theta.clamp(0.01, 0.99)", "theta.clamp(0.01, 0.98)"),
    ("ocp of NMC: not clamped a second time", "let x = x.clamp(0.1, 0.9);", "let x = x.clamp(0.01, 0.99);"),
    ("ocp of LFP: not clamped a second time", "    let x = x.clamp(0.01, 0.99);\n", "", because("x is clamped to the same limits before")),
    ("ocp of graphite: the root for powf(0.5)", "x.oracle_powf(0.5)", "x.sqrt()"),
    *reference("d_s"),
    *((f"{name}: t_ref 293.15", "t_ref: 298.15", "t_ref: 293.15", nth(n)) for n, name in [(1, "graphite_anode"), (2, "lfp_cathode"), (3, "nmc_cathode")]),
    ("step: 298.15 for t_ref", "let d_s = self.params.d_s(temp_k);", AT_298, nth(1)),
    ("dt_stable: 298.15 for t_ref", "let d_s = self.params.d_s(temp_k);", AT_298, nth(2)),
    ("new: the particle's t_ref is 298.15", "dr,\n            params,", "dr,\n            params: ElectrodeParams { t_ref: 298.15, ..params },"),
    ("dt_stable: h*h/D", STABILITY_LIMIT, "self.dr * self.dr / d_s"),
    ("dt_stable: h*h/(6*D)", STABILITY_LIMIT, "self.dr * self.dr / (6.0 * d_s)"),
    ("dt_stable: h*(h/(2*D))", STABILITY_LIMIT, "self.dr * (self.dr / (2.0 * d_s))"),
    ("dt_stable: h*h/(2*D)", STABILITY_LIMIT, "self.dr * self.dr / (2.0 * d_s)", because("a half and twice are exact, far from the least and the largest binary64")),
    ("sphere_volume: (r*r)*r first", "4.0 / 3.0 * PI * r * r * r", "4.0 / 3.0 * PI * (r * r * r)"),
]

ELECTROLYTE = [
    ("c_avg: from node 1", "self.c_e.iter().sum::<f64>()", "self.c_e.iter().skip(1).sum::<f64>()"),
    ("c_avg: without the last node", "self.c_e.iter().sum::<f64>()", "self.c_e.iter().take(self.c_e.len() - 1).sum::<f64>()"),
    ("c_avg: summed from the end", "self.c_e.iter().sum::<f64>()", "self.c_e.iter().rev().sum::<f64>()"),
    ("step: from node 1", "for i in 0..n {", "for i in 1..n {"),
    ("step: without the last node", "for i in 0..n {", "for i in 0..n - 1 {"),
    ("step: the anode a node longer", "if i < self.n_neg {", "if i <= self.n_neg {"),
    ("step: the separator a node longer", "i < self.n_neg + self.n_sep {", "i <= self.n_neg + self.n_sep {"),
    ("step: the update from node 1", "self.c_e.iter_mut().zip(dc.iter())", "self.c_e.iter_mut().zip(dc.iter()).skip(1)"),
    ("step: the update without the last node", "self.c_e.iter_mut().zip(dc.iter())", "self.c_e.iter_mut().zip(dc.iter()).take(n - 1)"),
    ("step: without the floor", ".max(1e-10)", ".max(f64::MIN)"),
    ("step: the floor one binary64 higher", ".max(1e-10)", ".max(" + as_rust(above(1e-10)) + ")"),
    (
        "step: a NaN passes the floor", "*ce = (*ce + dt * dc_val).max(1e-10);",
        "let c = *ce + dt * dc_val;\n            *ce = if c.is_nan() { c } else { c.max(1e-10) };",
        because("only an overflow makes no number of a place, and then an infinity of one sign: no NaN comes to the floor"),
    ),
    *reference("d_e", 1),
    *reference("kappa", 2),
    ("lipf6_ec_dmc: t_ref 293.15", "t_ref: 298.15", "t_ref: 293.15"),
    ("step: t_ref for temp_k in the separator", "self.params.d_e_eff(self.eps_sep, temp_k)", "self.params.d_e_eff(self.eps_sep, self.params.t_ref)"),
    ("dt_stable: t_ref for temp_k", ".min(self.eps_pos), temp_k)", ".min(self.eps_pos), self.params.t_ref)"),
    ("dt_stable: the largest porosity", "self.eps_neg.min(self.eps_sep).min(self.eps_pos)", "self.eps_neg.max(self.eps_sep).max(self.eps_pos)"),
]

AREA = "let area = self.electrode_area;"


def swapped_interval(own, other):
    """This electrode's stable interval with the other's reference temperature."""
    sheet = f"ElectrodeParams {{ t_ref: self.{other}.params.t_ref, ..self.{own}.params.clone() }}"
    return (f"step: the {own}'s interval by the {other}'s t_ref", f"self.{own}.dt_stable(temp_k)",
            f"ParticleDiffusion::new({sheet}, self.{own}.n_nodes).dt_stable(temp_k)")


LEAST = "dt.min(dt_neg).min(dt_pos)"


def longest(anode, cathode, least=LEAST):
    """The lines of the longest sub-step, with these factors of the electrodes' stability limits."""
    rows = [("neg", "anode", anode), ("pos", "cathode", cathode)]
    lines = [f"let dt_{name} = self.{electrode}.dt_stable(temp_k) * {factor};" for name, electrode, factor in rows]
    return "\n        ".join([*lines, f"let dt_use = {least};"])


def other_factors(what, factor):
    """Another factor in one electrode alone, and in both."""
    right = longest("0.30", "0.30")
    return [
        (f"step: {what} in the anode", right, longest(factor, "0.30")),
        (f"step: {what} in the cathode", right, longest("0.30", factor)),
        (f"step: {what} in both", right, longest(factor, factor)),
    ]


SOLVER = [
    *other_factors("0.45", "0.45"),
    *other_factors("0.34", "0.34"),
    *other_factors("the number before 0.30", as_rust(below(0.30))),
    *other_factors("the number after 0.30", as_rust(above(0.30))),
    *other_factors("0.30 of h*h/D", "0.60"),
    *other_factors("3/10 by two roundings", "3.0 / 10.0"),
    *other_factors("the whole limit", "1.0"),
    ("step: the factor of the interval too", longest("0.30", "0.30"), longest("1.0", "1.0", f"(0.30 * {LEAST}).max(f64::from_bits(1))")),
    ("step: the factor of the smaller limit", longest("0.30", "0.30"), longest("1.0", "1.0", "dt.min(0.30 * dt_neg.min(dt_pos))"), SAME_LEAST),
    ("step: the longest sub-step by the anode alone", LEAST, "{ let _ = dt_pos; dt.min(dt_neg) }"),
    ("step: the longest sub-step by the cathode alone", LEAST, "{ let _ = dt_neg; dt.min(dt_pos) }"),
    ("step: the longest sub-step by the larger limit", LEAST, "dt.min(dt_neg.max(dt_pos))"),
    ("step: sub-steps of the longest length", "dt / n_sub as f64", "dt_use"),
    ("step: the anode has the cathode's t_ref", AREA, AREA + " self.anode.params.t_ref = self.cathode.params.t_ref;"),
    ("step: the cathode has the anode's t_ref", AREA, AREA + " self.cathode.params.t_ref = self.anode.params.t_ref;"),
    ("step: 298.15 for both t_ref", AREA, AREA + " (self.anode.params.t_ref, self.cathode.params.t_ref) = (298.15, 298.15);"),
    swapped_interval("anode", "cathode"),
    swapped_interval("cathode", "anode"),
    ("step: the anode at the cathode's t_ref", "self.anode.step(j_n_neg, dt_sub, temp_k)",
     "self.anode.step(j_n_neg, dt_sub, self.cathode.params.t_ref)"),
    ("overpotential: t_ref for temp_k", "2.0 * r * temp_k / f", "2.0 * r * particle.params.t_ref / f"),
    ("step: a sub-step fewer", "for _ in 0..n_sub {", "for _ in 1..n_sub {"),
    ("step: a sub-step more", "for _ in 0..n_sub {", "for _ in 0..=n_sub {"),
    ("step: floor for ceil", ".ceil() as usize", ".floor() as usize"),
    ("step: the drop times the current's sign", "- v_ohm;", "- v_ohm * current_a.signum();"),
    ("step: the drop's size", "- v_ohm;", "- v_ohm.abs();"),
    ("step: the drop is added", "- v_ohm;", "+ v_ohm;"),
    ("step: no drop", "- v_ohm;", "- 0.0;"),
    ("step: no drop on charge", "- v_ohm;", "- v_ohm.max(0.0);"),
    ("step: no drop on discharge", "- v_ohm;", "- v_ohm.min(0.0);"),
    ("step: the drop twice", "- v_ohm;", "- 2.0 * v_ohm;"),
    ("step: the drop is added to the anode's potential", "- (u_neg + eta_neg) - v_ohm;", "- ((u_neg + eta_neg) + v_ohm);"),
    ("step: the drop of the current", "let v_ohm = i_app *", "let v_ohm = current_a *"),
    ("step: the drop by the cathode's area", "let v_ohm = i_app *", "let v_ohm = current_a / self.cathode.params.area *"),
    ("step: the cutoff of the voltage without the drop", "let cutoff = voltage < self.config.v_min || voltage >", "let cutoff = voltage + v_ohm < self.config.v_min || voltage + v_ohm >"),
    ("step: the anode's overpotential with the other sign", "let eta_neg = -self", "let eta_neg = self"),
    ("overpotential: the last digit of the root", "* 1000.0).sqrt()", "* 1000.0).sqrt().next_up()"),
    ("overpotential: powf(0.5) for the root", "* 1000.0).sqrt()", "* 1000.0).oracle_powf(0.5)"),
    (
        "overpotential: 0 up to 1e-20", "i_0_mol < 1e-30", "i_0_mol < 1e-20",
        because("k_bv is at least 1e-16 and the root at least 3, so i_0 is far above"),
    ),
    ("run: a first step before the clock is asked", "while t < max_time_s {", "while t < max_time_s || states.is_empty() {"),
    ("run: goes on at its limit", "while t < max_time_s {", "while t <= max_time_s {"),
    ("soc_estimate: not clamped", ".clamp(0.0, 1.0)", ".clamp(-9.0, 9.0)"),
]

DFN = [
    ("electrolyte: anode from node 2", "if i == 0 || i == n_neg - 1 {", "if i <= 1 || i == n_neg - 1 {"),
    ("electrolyte: anode without its last but one", "if i == 0 || i == n_neg - 1 {", "if i == 0 || i + 2 >= n_neg {"),
    ("electrolyte: the anode's last node too", "if i == 0 || i == n_neg - 1 {", "if i == 0 {"),
    ("electrolyte: the anode's loop from 1", "for i in 0..n_neg {", "for i in 1..n_neg {", SKIPPED),
    ("electrolyte: the anode's loop without its last", "for i in 0..n_neg {", "for i in 0..n_neg - 1 {", SKIPPED),
    ("electrolyte: cathode from its second node", "for i in 0..n_pos {", "for i in 1..n_pos {"),
    ("electrolyte: the cathode's loop without its last", "for i in 0..n_pos {", "for i in 0..n_pos - 1 {", SKIPPED),
    ("electrolyte: cathode without its last but one", "gi >= n_total - 1", "gi >= n_total - 2"),
    ("electrolyte: the cathode's last node too", "gi >= n_total - 1", "gi >= n_total"),
    ("electrolyte: clamped from node 1", "for c in &mut c_new {", "for c in c_new.iter_mut().skip(1) {"),
    ("electrolyte: clamped without the last node", "for c in &mut c_new {", "for c in c_new.iter_mut().take(n_total - 1) {"),
    ("electrolyte: clamped without the separator", "for c in &mut c_new {", "for (_, c) in c_new.iter_mut().enumerate().filter(|(i, _)| *i != n_neg) {"),
    ("electrolyte: from 101", "c.clamp(100.0, 3000.0)", "c.clamp(101.0, 3000.0)"),
    ("electrolyte: up to 2999", "c.clamp(100.0, 3000.0)", "c.clamp(100.0, 2999.0)"),
    ("electrolyte: a NaN becomes 100", "c.clamp(100.0, 3000.0)", "c.max(100.0).min(3000.0)"),
    ("electrolyte: the cathode's source with the other sign", "let source = (1.0 - p.t_plus) * a_pos", "let source = -(1.0 - p.t_plus) * a_pos"),
    ("d_eff_e: the exponent's sign", "(-self.gamma_e *", "(self.gamma_e *"),
    ("d_eff_e: powf after the product", "eps.oracle_powf(self.brugg) * d\n", "self.d_e0 * (eps.oracle_powf(self.brugg) * (d / self.d_e0))\n"),
    ("solid: particles from 1", "for xi in 0..n_x {", "for xi in 1..n_x {"),
    ("solid: without the last particle", "for xi in 0..n_x {", "for xi in 0..n_x - 1 {"),
    ("solid: inner nodes from 2", "for ri in 1..n_r - 1 {", "for ri in 2..n_r - 1 {"),
    ("solid: inner nodes without the last", "for ri in 1..n_r - 1 {", "for ri in 1..n_r - 2 {"),
    ("solid: the centre keeps its value", "            c_xi[0] = c_xi[1];\n", ""),
    ("solid: the centre takes the old value", "c_xi[0] = c_xi[1];", "c_xi[0] = c[1];"),
    ("solid: the first surface update is kept", "c_xi[n_r - 1] = c[n_r - 1] - dt_s", "c_xi[n_r - 1] = c_xi[n_r - 1] - dt_s"),
    ("solid: clamped from node 1", "for c in &mut c_xi {", "for c in c_xi.iter_mut().skip(1) {"),
    ("solid: clamped without the surface", "for c in &mut c_xi {", "for c in c_xi.iter_mut().take(n_r - 1) {"),
    ("solid: the centre is clamped twice", "c_xi[0] = c_xi[1];", "c_xi[0] = c_xi[1].clamp(0.0, c_s_max);", because("the second clamp changes nothing")),
    ("solid: the flux's sign", "let flux_surface = j_li", "let flux_surface = -j_li"),
    ("solid: d_surf at least 1e-18", "let flux_surface = j_li / d_surf.max(1e-30);", "let flux_surface = j_li / d_surf.max(1e-18);"),
    ("ocv: without the first coefficient", "coeffs.iter().fold", "coeffs.iter().skip(1).fold"),
    ("ocv: without the last coefficient", "coeffs.iter().fold", "coeffs.iter().take(coeffs.len().saturating_sub(1)).fold"),
    ("step: the middle a node later", "c_e_new[n_x_neg / 2]", "c_e_new[n_x_neg / 2 + 1]"),
    ("step: the largest change from node 1", ".zip(self.state.c_e.iter())", ".zip(self.state.c_e.iter())\n            .skip(1)"),
    ("step: the largest change without the last node", ".zip(self.state.c_e.iter())", ".zip(self.state.c_e.iter())\n            .take(self.state.c_e.len() - 1)"),
    ("step: the largest change with its sign", ".map(|(a, b)| (a - b).abs())", ".map(|(a, b)| a - b)"),
    ("voltage: not clamped below", "v.clamp(0.0, 5.0)", "v.min(5.0)"),
    ("voltage: not clamped above", "v.clamp(0.0, 5.0)", "v.max(0.0)"),
    (
        "voltage: 0 for a NaN", "v.clamp(0.0, 5.0)", "v.max(0.0).min(5.0)",
        because("a NaN comes only from the electrolyte's middle node, which is refused for itself"),
    ),
    ("voltage: powf(0.5) for the first root", "c_e_mid.sqrt()", "c_e_mid.oracle_powf(0.5)", nth(1)),
    *((f"voltage: the last digit of root {n}", ".sqrt()", ".sqrt().next_up()", nth(n)) for n in range(1, 7)),
    ("voltage: a NaN for the anode's third root", ".sqrt().max(0.0)", ".sqrt()", {**nth(1), **NO_I0}),
    ("voltage: a NaN for the cathode's third root", ".sqrt().max(0.0)", ".sqrt()", {**nth(2), **NO_I0}),
    ("voltage: the surface's own stoichiometry", "theta_neg.clamp(0.001, 0.999)", "theta_neg"),
    ("voltage: c_e/c_e0 from 1e-2", "(c_e_mid / p.c_e0).max(1e-3)", "(c_e_mid / p.c_e0).max(1e-2)"),
    (
        "voltage: the logarithm from 1e-4", ".max(1e-9).oracle_ln()", ".max(1e-4).oracle_ln()",
        because("c_e is clamped to at least 100 and c_e0 is at most 1e5, so the ratio is at least 1e-3"),
    ),
    ("run: ends after its limit", "step.time_s >= max_time_s", "step.time_s > max_time_s"),
    ("run: the voltage ends nothing", "step.cutoff || step.time_s", "step.time_s"),
    ("dense: columns from 1", "for col in 0..n {", "for col in 1..n {"),
    ("dense: without the last column", "for col in 0..n {", "for col in 0..n.saturating_sub(1) {", because("nothing stands below it, and the second pass asks its pivot too")),
    ("dense: the pivot search a row later", "for row in col + 1..n {\n            let v", "for row in col + 2..n {\n            let v"),
    ("dense: the pivot search without the last row", "for row in col + 1..n {\n            let v", "for row in col + 1..n - 1 {\n            let v"),
    ("dense: the last of two equal pivots", "if v > max_val {", "if v >= max_val {"),
    ("dense: a pivot with its sign", "let v = a[row * n + col].abs();", "let v = a[row * n + col];"),
    ("dense: 1e-14 is singular", "if max_val < 1e-14 {", "if max_val <= 1e-14 {"),
    ("dense: the number before 1e-14 is not singular", "if max_val < 1e-14 {", "if max_val < " + as_rust(below(1e-14)) + " {", because("the second pass asks every pivot again")),
    ("dense: the exchange from column 1", "for k in 0..n {", "for k in 1..n {"),
    ("dense: the exchange without the last column", "for k in 0..n {", "for k in 0..n - 1 {"),
    ("dense: the right side is not exchanged", "            x.swap(col, max_row);\n", ""),
    ("dense: elimination a row later", "for row in col + 1..n {\n            let f", "for row in col + 2..n {\n            let f"),
    ("dense: elimination without the last row", "for row in col + 1..n {\n            let f", "for row in col + 1..n - 1 {\n            let f"),
    ("dense: elimination from the next column", "for k in col..n {", "for k in col + 1..n {", UNREAD),
    ("dense: elimination without the last column", "for k in col..n {", "for k in col..n - 1 {"),
    ("dense: back from row 1", "for col in (0..n).rev() {", "for col in (1..n).rev() {"),
    ("dense: back without the last row", "for col in (0..n).rev() {", "for col in (0..n.saturating_sub(1)).rev() {"),
    ("dense: back, rows from 1", "for row in 0..col {", "for row in 1..col {"),
    ("dense: back, without the last row above", "for row in 0..col {", "for row in 0..col.saturating_sub(1) {"),
    (
        "dense: the second pass asks no pivot", "        if a[col * n + col].abs() < 1e-14 {\n            return None;\n        }\n        x[col] /=", "        x[col] /=",
        because("the first pass has asked every one, and does not change a row after its column"),
    ),
]

# ---- harness/calls: orders, limits, endings

ORDER = "[12, 1, 10, 2, 3, 4, 5, 6, 7, 8, 9]"


def swapped_orders():
    """Two neighbours of the table's order exchanged."""
    numbers = [int(n) for n in ORDER.strip("[]").split(", ")]
    reasons = {
        (5, 6): because("6 is asked only where 1 to 5 are not met"),
        (7, 8): because("8 is asked only where 7 is not met"),
        (8, 9): because("no solution is made where 9 is met"),
    }
    for i in range(len(numbers) - 1):
        pair, changed = (numbers[i], numbers[i + 1]), list(numbers)
        changed[i], changed[i + 1] = pair[1], pair[0]
        yield (f"{pair[1]} before {pair[0]}", ORDER, str(changed), reasons.get(pair, {}))


TABLE = [
    *swapped_orders(),
    ("the last number met wins", "ORDER.iter().find", "ORDER.iter().rev().find"),
    ("a range without its low end", "self.low <= x", "self.low < x"),
    ("a range without its high end", "x <= self.high", "x < self.high"),
    ("a range holds a NaN", "self.low <= x && x <= self.high", "!(x < self.low || x > self.high)"),
    ("-0 is +0", "x.to_bits() == 0", "x == 0.0"),
    ("unused places are not looked at", "{ unused(*x) }", "{ true }"),
    ("a place more is used", "if i < count { test", "if i <= count { test"),
    ("a place fewer is used", "if i < count { test", "if i + 1 < count { test"),
    ("the first place is not looked at", "if i < count { test(*x)", "if i < count { i == 0 || test(*x)"),
    ("one number in range is enough", "zip(ranges).all(", "zip(ranges).any("),
    ("finite: the first number is not looked at", "values.iter().all(|x| x.is_finite())", "values.iter().skip(1).all(|x| x.is_finite())"),
    ("finite: the last number is not looked at", "values.iter().all(|x| x.is_finite())", "values.iter().rev().skip(1).all(|x| x.is_finite())"),
    ("finite: an infinity is finite", "values.iter().all(|x| x.is_finite())", "values.iter().all(|x| !x.is_nan())"),
    ("finite: a NaN is finite", "values.iter().all(|x| x.is_finite())", "values.iter().all(|x| !x.is_infinite())"),
    ("9 for 8", "Err(8)", "Err(9)"),
    ("load: not asked to be finite", "x.is_finite() && x.abs() <= most", "x.abs() <= most", because("neither a NaN nor an infinity is at most anything")),
    ("load: without its end", "x.abs() <= most", "x.abs() < most"),
    ("load: any below zero", "x.abs() <= most", "x <= most"),
    ("interval: 0", "dt > 0.0 &&", "dt >= 0.0 &&"),
    ("interval: from the second least number", "dt > 0.0 &&", "dt > f64::from_bits(1) &&"),
    ("interval: below 86,400", "dt <= 86_400.0", "dt < 86_400.0"),
    ("interval: the number after 86,400", "dt <= 86_400.0", "dt <= " + as_rust(above(86400.0))),
    ("clock: infinity", "time_s.is_finite() && time_s >= 0.0", "time_s >= 0.0"),
    ("clock: above 0", "time_s >= 0.0", "time_s > 0.0"),
    ("clock: no -0", "time_s >= 0.0", "time_s.is_sign_positive()"),
    ("clock: any below zero", "time_s.is_finite() && time_s >= 0.0", "time_s.is_finite()"),
    ("current: one binary64 more", "MOST_CURRENT: f64 = 1e6", "MOST_CURRENT: f64 = " + as_rust(above(1e6))),
    ("flux: one binary64 more", "MOST_FLUX: f64 = 1e13", "MOST_FLUX: f64 = " + as_rust(above(1e13))),
    ("source: one binary64 more", "MOST_SOURCE: f64 = 1e9", "MOST_SOURCE: f64 = " + as_rust(above(1e9))),
]

CHAIN = (
    "if turn.cutoff {\n            Ending::Voltage\n        } else if time_over(rows.len(), &cell) {\n            Ending::Time\n"
    "        } else if rows.len() == capacity {\n            Ending::Full\n        }"
)
VOLTAGE, TIME, FULL = "turn.cutoff", "time_over(rows.len(), &cell)", "rows.len() == capacity"


def chain(*tests):
    names = {VOLTAGE: "Voltage", TIME: "Time", FULL: "Full"}
    return " else ".join(f"if {test} {{ Ending::{names[test]} }}" for test in tests)


RUNS = [
    ("time before voltage", CHAIN, chain(TIME, VOLTAGE, FULL)),
    ("full before time", CHAIN, chain(VOLTAGE, FULL, TIME)),
    ("full before all", CHAIN, chain(FULL, VOLTAGE, TIME)),
    ("the voltage ends nothing", CHAIN, chain(TIME, FULL)),
    ("the time ends nothing", CHAIN, chain(VOLTAGE, FULL)),
    ("full a row early", FULL, "rows.len() + 1 >= capacity"),
    ("a row that does not fit", "places / ROW", "places.div_ceil(ROW)"),
    ("voltage and time have each other's number", "Voltage = 1,\n    Time = 2,", "Voltage = 2,\n    Time = 1,"),
    ("full and refused have each other's number", "Full = 3,\n    Refused = 4,", "Full = 4,\n    Refused = 3,"),
    ("refused and done have each other's number", "Refused = 4,\n    Done = 5,", "Refused = 5,\n    Done = 4,"),
    ("done and spent have each other's number", "Done = 5,\n    Spent = 6,", "Done = 6,\n    Spent = 5,"),
    ("the clock is not asked before the first step", "if test_before_first && time_over", "if false && test_before_first && time_over"),
    ("the clock is asked a row late", TIME, "time_over(rows.len() - 1, &cell)"),
    ("the clock is asked a row early", TIME, "time_over(rows.len() + 1, &cell)"),
    ("the clock is asked of the cell at the start", TIME, "time_over(rows.len(), start)"),
    ("a refused step takes the rows", "Ending::Refused, refusal, rows, cell }", "Ending::Refused, refusal, rows: Vec::new(), cell }"),
    ("a refused step takes the cell", "Ending::Refused, refusal, rows, cell }", "Ending::Refused, refusal, rows, cell: start.clone() }"),
    ("a refused step has no number", "Ending::Refused, refusal, rows, cell }", "Ending::Refused, refusal: 0 * refusal, rows, cell }"),
    ("a refused step is full", "Ending::Refused, refusal, rows, cell }", "Ending::Full, refusal, rows, cell }"),
    ("the cell stays as it was", "        cell = turn.cell;\n", "        let _ = turn.cell;\n"),
]


def ends_of_t_ref(place):
    """The ends of its range that `limits` leaves, and no range at all; it is the number in this place."""
    old = "range(200.0, 400.0)"
    return [
        ("t_ref: its high end", old, f"range(200.0, {as_rust(below(400.0))})"),
        ("t_ref: below its low end", old, f"range({as_rust(below(200.0))}, 400.0)"),
        ("t_ref is not asked", "all_in(&self.numbers, &RANGES)", f"all_in(&self.numbers[..{place}], &RANGES[..{place}])"),
    ]


SUMMARY = "        met.when(10, lowest_places < groups(places / ROW));\n"


def summary_lengths():
    """A run's test of the summary's length."""
    groups_of, short = "groups(places / ROW)", "lowest_places < groups"
    return [
        ("run: the summary's length is not asked", SUMMARY, ""),
        ("run: a place of the summary more", short, "lowest_places <= groups"),
        ("run: a longer summary is refused", short, "lowest_places != groups"),
        ("run: a group more for a row that does not fit", groups_of, "groups(places.div_ceil(ROW))"),
        ("run: whole groups alone", groups_of, "(places / ROW / crate::lowest::GROUP)"),
        ("run: one group at least for no row", groups_of, "groups(places / ROW).max(1)", because("a slice without a row is refused with 10 all the same")),
        ("run: a group more than there are rows of", groups_of, "(places / ROW / crate::lowest::GROUP + 1)"),
        ("run: 2 before a short summary", SUMMARY, SUMMARY.replace("10, ", "if met.refuse().is_ok() { 10 } else { 0 }, ")),
        ("run: a short summary before all else", SUMMARY, "        if lowest_places < groups(places / ROW) {\n            return refused(self, 10);\n        }\n"),
        ("run: 2 for a short summary", SUMMARY, SUMMARY.replace("10, ", "2, ")),
    ]


CALLS_ELECTRODE = [
    ("chemistry 0", "(1..=3).contains", "(0..=3).contains"),
    ("chemistry 4", "(1..=3).contains", "(1..=4).contains"),
    ("no chemistry 3", "(1..=3).contains", "(1..=2).contains"),
    ("no chemistry 1", "(1..=3).contains", "(2..=3).contains"),
    ("LFP and NMC exchanged", "2 => ElectrodeType::LFP,\n            _ => ElectrodeType::NMC", "2 => ElectrodeType::NMC,\n            _ => ElectrodeType::LFP"),
    ("the sheet's numbers are not asked", "(1..=3).contains(&self.chemistry) && all_in(&self.numbers, &RANGES)", "(1..=3).contains(&self.chemistry)"),
    ("the chemistry is not asked", "(1..=3).contains(&self.chemistry) && all_in(&self.numbers, &RANGES)", "all_in(&self.numbers, &RANGES)"),
    ("d_s: the sheet is not asked", "        met.when(2, !self.fits());\n", ""),
    ("d_s: the temperature is not asked", "        met.when(5, !TEMPERATURE.holds(temp_k));\n", ""),
    ("d_s: 2 for 5", "met.when(5, !TEMPERATURE", "met.when(2, !TEMPERATURE"),
    ("specific_area, ocp, docp_dtheta: the sheet is not asked", "!self.fits() || !argument_ok", "!argument_ok"),
    ("ocp: any stoichiometry", "self.checked(theta.is_finite())?.ocp(theta)", "self.checked(true)?.ocp(theta)"),
    ("docp_dtheta: any stoichiometry", "self.checked(theta.is_finite())?.docp_dtheta(theta)", "self.checked(true)?.docp_dtheta(theta)"),
    ("ocp: a stoichiometry in 0 to 1", "self.checked(theta.is_finite())?.ocp(theta)", "self.checked((0.0..=1.0).contains(&theta))?.ocp(theta)"),
    ("docp_dtheta: a stoichiometry in 0 to 1", "self.checked(theta.is_finite())?.docp_dtheta(theta)", "self.checked((0.0..=1.0).contains(&theta))?.docp_dtheta(theta)"),
    ("sphere_volume: the radius is not asked", "    met.when(2, !RANGES[0].holds(r));\n", ""),
    *ends_of_t_ref(9),
    ("k_bv and t_ref exchanged", "e_a_ds, k_bv, t_ref] = self.numbers", "e_a_ds, t_ref, k_bv] = self.numbers"),
    ("the record's t_ref is 298.15", "e_a_ds, k_bv, t_ref }", "e_a_ds, k_bv, t_ref: 0.0 * t_ref + 298.15 }"),
    ("d_s: 5 for t_ref", "met.when(2, !self.fits());", "met.when(if RANGES[9].holds(self.numbers[9]) { 2 } else { 5 }, !self.fits());"),
    ("a number that is not finite", "finite_or_8(&[&[x]]).map(|()| x)", "Ok(x)"),
]

CALLS_PARTICLE = [
    ("2 nodes", "(3..=PLACES as u64)", "(2..=PLACES as u64)"),
    ("4 nodes at least", "(3..=PLACES as u64)", "(4..=PLACES as u64)"),
    ("63 nodes at most", "(3..=PLACES as u64)", "(3..PLACES as u64)"),
    ("a place below zero", "let solid = range(0.0, self", "let solid = range(-f64::from_bits(1), self"),
    ("no place of 0", "let solid = range(0.0, self", "let solid = range(f64::from_bits(1), self"),
    ("a place above c_s_max", "self.sheet.c_s_max());\n        self", "self.sheet.c_s_max().next_up());\n        self"),
    ("the sheet is not asked", "self.sheet.fits() && places", "places"),
    ("the places are not asked", "self.sheet.fits() && places(&self.c_s, self.n.min(PLACES as u64) as usize, |x| solid.holds(x))", "{ let _ = solid; self.sheet.fits() }"),
    ("new: the sheet is not asked", "        met.when(2, !sheet.fits());\n", ""),
    ("new: the count is not asked", "        met.when(1, !nodes_fit(n));\n", ""),
    ("the count is not asked", "        met.when(1, !nodes_fit(self.n));\n", ""),
    ("step: the flux is not asked", "        met.when(3, !load(j_n, MOST_FLUX));\n", ""),
    ("step: the interval is not asked", "        met.when(4, !interval(dt));\n", ""),
    ("step: the temperature is not asked", "        met.when(5, !TEMPERATURE.holds(temp_k));\n", "", nth(1)),
    ("dt_stable: the temperature is not asked", "        met.when(5, !TEMPERATURE.holds(temp_k));\n", "", nth(2)),
    ("step: a profile that is not finite", "        finite_or_8(&[&moved.c_s])?;\n", "", FINITE),
]


def with_298(electrode):
    """An electrode's stable interval with 298.15."""
    particle = f"cell.{electrode}"
    sheet = f"oracle::electrode::ElectrodeParams {{ t_ref: 298.15, ..{particle}.params.clone() }}"
    return f"oracle::electrode::ParticleDiffusion::new({sheet}, {particle}.n_nodes).dt_stable(temp_k)"


CALLS_SOLVER = [
    ("count: q + 1 of a whole q", "(whole as f64) < q", "(whole as f64) <= q"),
    ("count: the whole number below q", "whole + 1", "whole"),
    ("q of 4,096 is too many", "q > MOST_SUB_STEPS", "q >= MOST_SUB_STEPS"),
    ("q: one binary64 more", "MOST_SUB_STEPS: f64 = 4096.0", "MOST_SUB_STEPS: f64 = " + as_rust(above(4096.0))),
    ("q: the anode's interval is not asked", "dt_neg.min(dt_pos)", "{ let _ = dt_neg; dt_pos }"),
    ("q: the cathode's interval is not asked", "dt_neg.min(dt_pos)", "{ let _ = dt_pos; dt_neg }"),
    ("q: the longer interval of both", "dt_neg.min(dt_pos)", "dt_neg.max(dt_pos)"),
    ("q: the whole limit of the anode", "cell.anode.dt_stable(temp_k) * part", "cell.anode.dt_stable(temp_k)"),
    ("q: the whole limit of the cathode", "cell.cathode.dt_stable(temp_k) * part", "cell.cathode.dt_stable(temp_k)"),
    ("q: the factor of the interval too", "dt / dt.min(longest)", "dt / longest.min(SUB_STEP * dt)"),
    ("q: a shorter interval by the longest sub-step", "dt / dt.min(longest)", "dt / longest"),
    *((f"q: {what} for 0.30", "SUB_STEP: f64 = 0.30", f"SUB_STEP: f64 = {factor}") for what, factor in [
        ("0.45", "0.45"), ("0.34", "0.34"), ("0.60", "0.60"), ("the number before", as_rust(below(0.30))), ("the number after", as_rust(above(0.30))),
    ]),
    ("new: the count is not asked", "        met.when(1, !nodes_fit(config.n_nodes));\n", "", nth(1)),
    ("ready cells: the count is not asked", "        met.when(1, !nodes_fit(config.n_nodes));\n", "", nth(2)),
    ("new: the config is not asked", "!all_in(&config.numbers, &RANGES) || !anode.fits() || !cathode.fits()", "!anode.fits() || !cathode.fits()"),
    ("new: the anode's sheet is not asked", "&RANGES) || !anode.fits() || !cathode.fits()", "&RANGES) || !cathode.fits()", BUILT),
    ("new: the cathode's sheet is not asked", "&RANGES) || !anode.fits() || !cathode.fits()", "&RANGES) || !anode.fits()", BUILT),
    ("ready cells: the config is not asked", "        met.when(2, !all_in(&config.numbers, &RANGES));\n", ""),
    ("the config's count is not asked", "!nodes_fit(n) || self.anode.n != n", "self.anode.n != n"),
    ("the anode's count is not asked", "|| self.anode.n != n ", ""),
    ("the cathode's count is not asked", " || self.cathode.n != n", ""),
    ("the config is not asked", "!all_in(&self.config.numbers, &RANGES) || !self.anode", "!self.anode"),
    ("the anode is not asked", "!self.anode.fits() || ", ""),
    ("the cathode is not asked", "!self.cathode.fits() || ", ""),
    ("the clock is not asked", " || !clock(self.time_s)", ""),
    ("the area is the cathode's", "let electrode_area = anode.params.area;", "let electrode_area = cathode.params.area;"),
    ("step: the current is not asked", "        met.when(3, !load(current_a, MOST_CURRENT));\n", "", nth(1)),
    ("step: the interval is not asked", "        met.when(4, !interval(dt));\n", ""),
    ("step: the temperature is not asked", "        met.when(5, !TEMPERATURE.holds(temp_k));\n", "", nth(1)),
    ("step: 6 by 298.15", "p.params.d_s(temp_k)", "oracle::electrode::ElectrodeParams { t_ref: 298.15, ..p.params.clone() }.d_s(temp_k)"),
    ("step: 6 by d_s_ref", "p.params.d_s(temp_k)", "{ let _ = temp_k; p.params.d_s_ref }"),
    (
        "step: 6 by the other electrode's t_ref", "!in_range(&made.anode) || !in_range(&made.cathode)",
        "{\n            let (mut anode, mut cathode) = (self.anode.clone(), self.cathode.clone());\n"
        "            std::mem::swap(&mut anode.sheet.numbers[9], &mut cathode.sheet.numbers[9]);\n"
        "            !in_range(&anode.diffusion()) || !in_range(&cathode.diffusion())\n        }",
    ),
    ("q: 298.15 for the anode's t_ref", "cell.anode.dt_stable(temp_k)", with_298("anode")),
    ("q: 298.15 for the cathode's t_ref", "cell.cathode.dt_stable(temp_k)", with_298("cathode")),
    ("step: the anode's diffusivity is not asked", "!in_range(&made.anode) || ", ""),
    ("step: the cathode's diffusivity is not asked", " || !in_range(&made.cathode)", ""),
    ("step: 7 is not asked", "if q > MOST_SUB_STEPS {", "if false {"),
    ("step: an anode that is not finite", "&made.anode.c_s, ", "", FINITE),
    ("step: a cathode that is not finite", "&made.cathode.c_s, ", "", FINITE),
    ("step: a clock that is not finite", "&[made.time_s], ", "", FINITE),
    ("step: a report that is not finite", ", &report.row()])?", "])?", FINITE),
    ("report: the stoichiometries exchanged", "s.theta_neg, s.theta_pos, s.theta_neg_avg", "s.theta_pos, s.theta_neg, s.theta_neg_avg"),
    ("report: the averages exchanged", "s.theta_neg_avg, s.theta_pos_avg", "s.theta_pos_avg, s.theta_neg_avg"),
    ("report: cutoff the other way", "if s.cutoff { 1.0 } else { 0.0 }", "if s.cutoff { 0.0 } else { 1.0 }"),
    ("report: a sub-step more", "word(self.sub_steps)", "word(self.sub_steps + 1)"),
    ("ocv: the cell is not asked", "        self.met().refuse()?;\n        finite(self.spm().ocv())", "        finite(self.spm().ocv())"),
    ("soc_estimate: the cell is not asked", "        self.met().refuse()?;\n        finite(self.spm().soc", "        finite(self.spm().soc"),
    ("run: the length is not asked", "        met.when(10, places < ROW);\n", ""),
    ("run: nine places at least", "places < ROW", "places <= ROW"),
    ("run: the current is not asked", "        met.when(3, !load(current_a, MOST_CURRENT));\n", "", nth(2)),
    ("run: the interval is not asked", "!interval(dt) || !max_time_s", "!max_time_s"),
    ("run: the limit is not asked", " || !max_time_s.is_finite()", ""),
    ("run: the temperature is not asked", "        met.when(5, !TEMPERATURE.holds(temp_k));\n", "", nth(2)),
    (
        "run: 6 and 7 are asked even if no step is due", "        let step = |cell: &Self| {",
        "        if let Err(number) = self.step(current_a, dt, temp_k) {\n            return refused(self, number);\n        }\n        let step = |cell: &Self| {",
    ),
    ("run: its clock starts at the cell's", "fold(0.0, |t, _| t + dt)", "fold(self.time_s, |t, _| t + dt)"),
    ("run: its clock is rows*dt", "(0..rows).fold(0.0, |t, _| t + dt)", "rows as f64 * dt"),
    ("run: time is over after its limit", "!(own_clock(rows) < max_time_s)", "own_clock(rows) > max_time_s"),
    ("run: a first step always", "max_time_s), true)", "max_time_s), false)"),
    *summary_lengths(),
]

EQUAL_BITS = because("no run writes a -0, so equal voltages have equal bits")
HUGE_SUMMARY = because("a count from 2^61 on asks for 2^55 places of a summary, which no slice has")

LOWEST_OF = "    let first = group.iter()"
NONE_BELOW = "!group.iter().any(|other| other[0] < row[0])"
BY_GROUP = "rows.chunks(GROUP).map(lowest_of).collect()"
LEFT = "[&lowest[..], &places[lowest.len()..]].concat()"
ROOM_FOR_ROWS = "    met.when(10, rows.len() / ROW < count);\n"
ROOM_FOR_GROUPS = "    met.when(10, lowest.len() < groups(count));\n"
KNOWN_WRITER = "    met.when(2, !WRITERS.contains(&which));\n"
FINITE_VOLTAGE = "    met.when(2, !voltage.is_finite());\n"
GROUPS = "for group in 0..groups(count) {"
PASSED_OVER = "!(lowest[group] < voltage)"
ROWS_OF_GROUP = "GROUP * group..count.min(GROUP * (group + 1))"
UNDER = "rows[ROW * row] < voltage"
HIT = "return Ok(Some(row));"
NO_HIT = f"                {HIT}\n            }}\n        }}\n"


def changed(how):
    """What is left in the summary, changed."""
    return f"{{\n        let mut all = {LEFT};\n        {how}\n        all\n    }}"


CALLS_LOWEST = [
    ("groups of 63", "GROUP: usize = 64", "GROUP: usize = 63"),
    ("groups of 65", "GROUP: usize = 64", "GROUP: usize = 65"),
    ("groups: whole ones alone", "rows.div_ceil(GROUP)", "rows / GROUP"),
    ("groups: always one more", "rows.div_ceil(GROUP)", "rows / GROUP + 1"),
    ("groups: one of no rows", "rows.div_ceil(GROUP)", "rows.div_ceil(GROUP).max(1)"),
    ("lowest: of equals the last", "group.iter().find(", "group.iter().rev().find(", EQUAL_BITS),
    ("lowest: the highest", "other[0] < row[0]", "other[0] > row[0]"),
    ("lowest: the group's first row", NONE_BELOW, "{ let _ = row; true }"),
    ("lowest: the group's last row", NONE_BELOW, "std::ptr::eq(*row, &group[group.len() - 1])"),
    ("lowest: the first row that the next is not below", "group.iter().any(|other|", "group.iter().skip_while(|other| !std::ptr::eq(*other, *row)).take(2).any(|other|"),
    ("lowest: the group's first row is left out", LOWEST_OF, "    let group = &group[1.min(group.len() - 1)..];\n" + LOWEST_OF),
    ("lowest: the group's last row is left out", LOWEST_OF, "    let group = &group[..1.max(group.len() - 1)];\n" + LOWEST_OF),
    ("lowest: the row's current", 'number")[0]', 'number")[1]'),
    ("lowest: by the current", "other[0] < row[0]", "other[1] < row[1]"),
    ("lowest: a short last group is left out", "rows.chunks(GROUP)", "rows.chunks_exact(GROUP)"),
    ("lowest: groups begin a row late", "rows.chunks(GROUP)", "rows[1.min(rows.len())..].chunks(GROUP)"),
    ("lowest: of all rows up to the group's last", BY_GROUP, "(1..=groups(rows.len())).map(|n| lowest_of(&rows[..rows.len().min(n * GROUP)])).collect()"),
    ("lowest: in every place the whole run's", BY_GROUP, "rows.chunks(GROUP).map(|_| lowest_of(rows)).collect()"),
    ("summary: places past the last group are cleared", LEFT, changed("all[lowest.len()..].fill(0.0);")),
    ("summary: the place after the last group is cleared", LEFT, changed("if let Some(place) = all.get_mut(lowest.len()) { *place = 0.0; }")),
    ("summary: the place for the next row is cleared", LEFT, changed("if rows.len() % GROUP == 0 { if let Some(place) = all.get_mut(lowest.len()) { *place = 0.0; } }")),
    ("summary: what was lower before stays", LEFT, changed("for (low, place) in all.iter_mut().zip(places) { *low = low.min(*place); }")),
    ("summary: cleared after a run without a row", LEFT, changed("if rows.is_empty() { all.fill(0.0); }")),
    ("summary: cut to the groups that are written", LEFT, changed("all.truncate(lowest.len());")),
    ("search: the rows' length is not asked", ROOM_FOR_ROWS, ""),
    ("search: the rows' length by a product that wraps", "rows.len() / ROW < count", "rows.len() < ROW.wrapping_mul(count)", HUGE_SUMMARY),
    ("search: a row that is not whole", "rows.len() / ROW < count", "rows.len().div_ceil(ROW) < count"),
    ("search: a row more", "rows.len() / ROW < count", "rows.len() / ROW <= count"),
    ("search: more rows than the count are refused", "rows.len() / ROW < count", "rows.len() / ROW != count"),
    ("search: the summary's length is not asked", ROOM_FOR_GROUPS, ""),
    ("search: a place of the summary more", "lowest.len() < groups(count)", "lowest.len() <= groups(count)"),
    ("search: a longer summary is refused", "lowest.len() < groups(count)", "lowest.len() != groups(count)"),
    ("search: the groups of all rows are asked", "lowest.len() < groups(count)", "lowest.len() < groups(rows.len() / ROW)"),
    ("search: one group at least is asked", "lowest.len() < groups(count)", "lowest.len() < groups(count).max(1)"),
    ("search: a summary of whole groups is enough", "lowest.len() < groups(count)", "lowest.len() < count / GROUP"),
    ("search: which is not asked", KNOWN_WRITER, ""),
    ("search: which may be 0", "WRITERS: [u64; 2] = [1, 2]", "WRITERS: [u64; 3] = [0, 1, 2]"),
    ("search: which may be 3", "WRITERS: [u64; 2] = [1, 2]", "WRITERS: [u64; 3] = [1, 2, 3]"),
    ("search: which is 1 alone", "WRITERS: [u64; 2] = [1, 2]", "WRITERS: [u64; 1] = [1]"),
    ("search: which is 2 alone", "WRITERS: [u64; 2] = [1, 2]", "WRITERS: [u64; 1] = [2]"),
    ("search: which by its last 32 bits", "contains(&which)", "contains(&(which % (1 << 32)))"),
    ("search: the voltage is not asked", FINITE_VOLTAGE, ""),
    ("search: an infinite voltage", "!voltage.is_finite()", "voltage.is_nan()"),
    ("search: a voltage that is a NaN", "!voltage.is_finite()", "voltage.is_infinite()"),
    ("search: 3 for a voltage that is not finite", FINITE_VOLTAGE, FINITE_VOLTAGE.replace("2, ", "3, ")),
    ("search: 2 before 10", KNOWN_WRITER, "    if !WRITERS.contains(&which) || !voltage.is_finite() {\n        return Err(2);\n    }\n"),
    ("search: 1 for 10", ROOM_FOR_ROWS, ROOM_FOR_ROWS.replace("10, ", "1, ")),
    ("search: a group whose lowest value is the chosen one", PASSED_OVER, "!(lowest[group] <= voltage)"),
    ("search: a group whose lowest value is a NaN", PASSED_OVER, "lowest[group] >= voltage"),
    ("search: no group is passed over", PASSED_OVER, "false"),
    ("search: groups under the voltage are passed over", PASSED_OVER, "lowest[group] < voltage"),
    ("search: the summary's last place for each group", "!(lowest[group]", "!(lowest[lowest.len() - 1]"),
    ("search: the summary's first place for each group", "!(lowest[group]", "!(lowest[0]"),
    ("search: ends at the first group that is passed over", "continue;", "return Ok(None);"),
    ("search: ends at the first group without a hit", NO_HIT, NO_HIT + "        return Ok(None);\n"),
    ("search: the group's first row where its lowest value is under", UNDER, "{ let _ = rows[ROW * row]; true }"),
    ("search: the row of the lowest value", UNDER, "rows[ROW * row] == lowest[group]"),
    ("search: a row with the chosen voltage", UNDER, "rows[ROW * row] <= voltage"),
    ("search: a row with a NaN", UNDER, "!(rows[ROW * row] >= voltage)"),
    ("search: a row above the voltage", UNDER, "rows[ROW * row] > voltage"),
    ("search: a row's second place", UNDER, "rows[ROW * row + 1] < voltage"),
    ("search: from the second group on", GROUPS, "for group in 1..groups(count) {"),
    ("search: the last group is left out", GROUPS, "for group in 0..groups(count).saturating_sub(1) {"),
    ("search: a short last group is left out", GROUPS, "for group in 0..count / GROUP {"),
    ("search: from the last group to the first", GROUPS, "for group in (0..groups(count)).rev() {"),
    ("search: every other group", GROUPS, "for group in (0..groups(count)).step_by(2) {"),
    ("search: from a group's second row on", ROWS_OF_GROUP, "GROUP * group + 1..count.min(GROUP * (group + 1))"),
    ("search: a group's last row is left out", ROWS_OF_GROUP, "GROUP * group..count.min(GROUP * (group + 1)) - 1"),
    ("search: a whole group's last row is left out", ROWS_OF_GROUP, "GROUP * group..count.min(GROUP * (group + 1) - 1)"),
    ("search: a group has a row more", ROWS_OF_GROUP, "GROUP * group..count.min(GROUP * (group + 1) + 1)"),
    ("search: from a group's last row to its first", ROWS_OF_GROUP, f"({ROWS_OF_GROUP}).rev()"),
    ("search: rows after the count too", ROWS_OF_GROUP, "GROUP * group..(rows.len() / ROW).min(GROUP * (group + 1))"),
    ("search: the count's last row is left out", ROWS_OF_GROUP, "GROUP * group..(count - 1).min(GROUP * (group + 1))"),
    ("search: rows counted from 1", HIT, "return Ok(Some(row + 1));"),
    ("search: rows counted from their group's first", HIT, "return Ok(Some(row % GROUP));"),
    ("search: the place for the row", HIT, "return Ok(Some(ROW * row));"),
    ("search: the group for the row", HIT, "return Ok(Some(group));"),
    ("search: none is row 0", "    Ok(None)\n", "    Ok(Some(0))\n"),
    ("full read: a row with the chosen voltage", "position(|row| row[0] < voltage)", "position(|row| row[0] <= voltage)"),
    ("full read: rows after the count too", "rows[..count].iter()", "{ let _ = count; rows.iter() }"),
]

DIGITS, LETTERS = "b'0'..=b'9' => Ok(u64::from(byte - b'0')),", "b'A'..=b'F' => Ok(u64::from(byte - b'A') + 10),"
TAB, FEED = "text[16] != b'\\t'", "text[33] != b'\\n'"
REST = "let (mut cell, mut rows, mut left) = (self.clone(), Vec::new(), text);"
NO_BYTE_LEFT = "            if left.is_empty() {\n                break (Ending::Done, 0);\n            }\n"
NO_ROOM_LEFT = "            if rows.len() == places / ROW {\n                break (Ending::Full, 0);\n            }\n"
STEP = "cell.step(current_a, dt, temp_k)"
REFUSED = "Err(number) => break (Ending::Refused, number),"
CUTOFF = "if report.state.cutoff {"


def read_as(change):
    """The text is changed before it is read: `whole` is a copy of it."""
    return f"let mut whole = text.to_vec();\n        {change}\n        " + REST.replace("text)", "&whole[..])")


CALLS_REPLAY = [
    ("lower case is taken", LETTERS, LETTERS + " b'a'..=b'f' => Ok(u64::from(byte - b'a') + 10),"),
    ("A is 11", "b'A') + 10", "b'A') + 11"),
    ("A is 9", "b'A') + 10", "b'A') + 9"),
    ("0 is 1", "Ok(u64::from(byte - b'0'))", "Ok(u64::from(byte - b'0') + 1)"),
    ("/ is a digit", DIGITS, "b'/'..=b'9' => Ok(u64::from(byte.saturating_sub(b'0'))),"),
    (": is a digit", DIGITS, DIGITS.replace("b'9'", "b':'")),
    ("@ is a digit", LETTERS, "b'@'..=b'F' => Ok(u64::from(byte - b'@') + 9),"),
    ("G is a digit", LETTERS, LETTERS.replace("b'F'", "b'G'")),
    ("0 is no digit", DIGITS, DIGITS.replace("b'0'..", "b'1'..")),
    ("9 is no digit", DIGITS, DIGITS.replace("b'9'", "b'8'")),
    ("A is no digit", LETTERS, LETTERS.replace("b'A'..", "b'B'..")),
    ("F is no digit", LETTERS, LETTERS.replace("b'F'", "b'E'")),
    ("the lowest digit first", "16 * bits + digit(*byte)?", "bits / 16 + (digit(*byte)? << 60)"),
    ("without the first digit", "for byte in digits", "for byte in &digits[1..]"),
    ("without the last digit", "for byte in digits", "for byte in &digits[..15]"),
    ("a NaN is no number", "    Ok(f64::from_bits(bits))", "    if f64::from_bits(bits).is_nan() {\n        return Err(11);\n    }\n    Ok(f64::from_bits(bits))"),
    ("-0 becomes +0", "Ok(f64::from_bits(bits))", "Ok(f64::from_bits(bits) + 0.0)"),
    ("2 for 11 of a digit", "_ => Err(11)", "_ => Err(2)"),
    ("2 for 11 of a line", "        return Err(11);", "        return Err(2);"),
    ("the tab is not looked at", TAB, "false"),
    ("a space for the tab", TAB, TAB + " && text[16] != b' '"),
    ("the line feed is not looked at", FEED, "false"),
    ("CR for the line feed", FEED, FEED + " && text[33] != b'\\r'"),
    ("3 before a wrong line feed", FEED, FEED + " && number(&text[17..33])?.is_finite()"),
    ("the second field a byte early", "&text[17..33]", "&text[16..32]"),
    ("the first field twice", "&text[17..33]", "&text[..16]"),
    ("CR LF is taken", REST, read_as("whole.retain(|byte| *byte != b'\\r');")),
    ("the last line feed may be missing", REST, read_as("if whole.len() % LINE == LINE - 1 {\n            whole.push(b'\\n');\n        }")),
    ("what is left of a line is passed over", REST, read_as("whole.truncate(whole.len() / LINE * LINE);")),
    ("blank lines are passed over", NO_BYTE_LEFT, "            while left.first() == Some(&b'\\n') {\n                left = &left[1..];\n            }\n" + NO_BYTE_LEFT),
    ("from the second line on", REST, read_as("whole.drain(..LINE.min(text.len()));")),
    ("without the last line", REST, read_as("whole.truncate(text.len().saturating_sub(LINE));")),
    ("35 bytes a line", "LINE: usize = 34", "LINE: usize = 35"),
    ("33 bytes a line", "left = &left[LINE..]", "left = &left[LINE - 1..]"),
    ("every second line", "left = &left[LINE..]", "left = &left[left.len().min(2 * LINE)..]"),
    ("interval and current exchanged", "|[dt, current_a]|", "|[current_a, dt]|"),
    ("4 before 3, as they stand in a line", STEP, "if crate::table::interval(dt) { cell.step(current_a, dt, temp_k) } else { Err(4) }"),
    ("298.15 for both t_ref", REST, REST + "\n        (cell.anode.sheet.numbers[9], cell.cathode.sheet.numbers[9]) = (298.15, 298.15);"),
    ("each step from the first cell", STEP, "self.step(current_a, dt, temp_k)"),
    ("the text's length is not asked", "        met.when(12, text.len() > MOST_TEXT);\n", ""),
    ("65,536 bytes are too many", "text.len() > MOST_TEXT", "text.len() >= MOST_TEXT"),
    ("65,537 bytes are not too many", "text.len() > MOST_TEXT", "text.len() > MOST_TEXT + 1"),
    ("the cell is not asked before the first line", "let mut met = self.met();", "let mut met = crate::table::Met::default();"),
    ("the rows are not asked", "        met.when(10, places < ROW);\n", ""),
    ("nine places at least", "places < ROW", "places <= ROW"),
    ("the temperature is not asked before the first line", "        met.when(5, !TEMPERATURE.holds(temp_k));\n", ""),
    ("all lines are read before the first step", REST, "if text.chunks(LINE).any(|line| first_line(line).is_err()) {\n            return refused(self, 11);\n        }\n        " + REST),
    ("an empty text is no text", "if left.is_empty() {", "if left.is_empty() && !rows.is_empty() {"),
    ("an empty text is asked for 6", REST, REST + "\n        if let Err(6) = self.step(0.0, 1.0, temp_k) {\n            return refused(self, 6);\n        }"),
    ("done is time", "Ending::Done", "Ending::Time"),
    ("full before done", NO_BYTE_LEFT + NO_ROOM_LEFT, NO_ROOM_LEFT + NO_BYTE_LEFT),
    ("done before voltage", CUTOFF, "if report.state.cutoff && !left.is_empty() {"),
    ("full before voltage", CUTOFF, "if report.state.cutoff && rows.len() < places / ROW {"),
    ("the voltage ends nothing", CUTOFF, "if report.state.cutoff && rows.is_empty() {"),
    ("a row fewer", "rows.len() == places / ROW", "rows.len() + 1 == places / ROW"),
    ("a row that does not fit", "rows.len() == places / ROW", "rows.len() == places.div_ceil(ROW)"),
    (
        "the line after the last row is read", NO_ROOM_LEFT,
        NO_ROOM_LEFT.replace("{\n", "{\n                if let Err(number) = first_line(left) {\n                    break (Ending::Refused, number);\n                }\n", 1),
    ),
    (
        "the line after the last row is stepped", NO_ROOM_LEFT,
        NO_ROOM_LEFT.replace("{\n", "{\n                if let Err(number) = first_line(left).and_then(|[dt, i]| cell.step(i, dt, temp_k)) {\n"
                             "                    break (Ending::Refused, number);\n                }\n", 1),
    ),
    ("full with a line left only", NO_ROOM_LEFT, NO_ROOM_LEFT.replace("Ending::Full", "if left.len() < LINE { Ending::Done } else { Ending::Full }")),
    ("a refused line has a row", REFUSED, REFUSED.replace("break", "{ rows.push([0.0; ROW]); break").replace("),", ") }")),
    ("a refused line takes the rows above", REFUSED, REFUSED.replace("break", "{ rows.clear(); break").replace("),", ") }")),
    ("a refused line takes the cell", REFUSED, REFUSED.replace("break", "{ cell = self.clone(); break").replace("),", ") }")),
    ("a refused line has no number", REFUSED, "Err(number) => break (Ending::Refused, 0 * number),"),
    ("a refused line is done", REFUSED, "Err(number) => break (Ending::Done, number),"),
    ("a line that is none is passed over", REFUSED, "Err(11) if left.len() >= LINE => {\n                    left = &left[LINE..];\n                    continue;\n                }\n                " + REFUSED),
    ("the cutoff's row is left out", "rows.push(report.row());", "if !report.state.cutoff {\n                rows.push(report.row());\n            }"),
    ("the cutoff's cell is left out", "cell = next;", "if !report.state.cutoff {\n                cell = next;\n            }"),
    ("the cell stays as it was", "            cell = next;\n", "            let _ = next;\n"),
]

LOAD, CURRENT = "Phase::Charge(current_a) | Phase::Discharge(current_a) => current_a > 0.0 && current_a <= MOST_CURRENT,", "current_a > 0.0 && current_a <= MOST_CURRENT"
REST_TIME, CUT = "range(0.0, MOST_REST).holds(time_s)", "Phase::Charge(_) | Phase::Discharge(_) => cutoff,"
ASKED = "let phases = self.first_phases();"
PHASES_IN, REPEATS_IN, BUDGET_IN = "(1..=PLACES as u64)", "(1..=MOST_REPEATS)", "(1..=MOST_BUDGET)"
ROOM = "((places / ROW) as u64) < self.budget"
TIMES = "!interval(self.dt) || !phases.iter().all(|phase| phase.time_fits())"
MEET = "schedule.meet(places, &mut met);"
WRITTEN_OUT = "self.first_phases().repeat(self.repeats as usize)"
PHASE = "let phase = phases[at];"
RAISED = "            clock += schedule.dt;\n"
OVER = "phase.over(report.state.cutoff, clock)"
MOVED = "(at, clock) = (at + 1, 0.0);"
ENDED = f"            if {OVER} {{\n                {MOVED}\n            }}\n"
IS_DONE = "            if at == phases.len() {\n                break (Ending::Done, 0);\n            }\n"
MADE = "rows.len() as u64 >= schedule.budget"
IS_SPENT = f"            if {MADE} {{\n                break (Ending::Spent, 0);\n            }}\n"
NO_CURRENT = "!schedule.first_phases().iter().all(|phase| phase.current_fits())"
NO_TIME = "!schedule.first_phases().iter().all(|phase| phase.time_fits())"
ALWAYS_FIRST = because("sheets, interval and temperature decide over 6 and 7, so a cycle's first step has them or none")


def before(number, other, met):
    """The number `other` goes before `number`, where it is met."""
    return (f"{other} before {number}", MEET, f"{MEET}\n        if met.refuse() == Err({number}) && {met} {{\n            return refused(self, {other});\n        }}")


def rearranged(phase):
    """The phases written out, but this one in the place k; `first` are those that are repeated."""
    return f"{{\n            let (first, mut all) = (self.first_phases(), {WRITTEN_OUT});\n            all.iter_mut().enumerate().for_each(|(k, phase)| *phase = {phase});\n            all\n        }}"


CALLS_CYCLE = [
    ("a current of 0", "current_a > 0.0 &&", "current_a >= 0.0 &&"),
    ("a current from the second least number on", "current_a > 0.0 &&", "current_a > f64::from_bits(1) &&"),
    ("a current below 0", CURRENT, "current_a != 0.0 && current_a.abs() <= MOST_CURRENT"),
    ("no current of 1e6", "current_a <= MOST_CURRENT", "current_a < MOST_CURRENT"),
    ("the current after 1e6", "current_a <= MOST_CURRENT", "current_a <= " + as_rust(above(1e6))),
    ("any current above 0", CURRENT, "current_a > 0.0"),
    ("an infinite current", CURRENT, CURRENT + " || current_a == f64::INFINITY"),
    ("a current that is a NaN", CURRENT, "!(current_a <= 0.0 || current_a > MOST_CURRENT)"),
    ("a charge's current is not asked", LOAD, "Phase::Charge(_) => true,\n            " + LOAD.replace("Phase::Charge(current_a) | ", "")),
    ("a discharge's current is not asked", LOAD, "Phase::Discharge(_) => true,\n            " + LOAD.replace(" | Phase::Discharge(current_a)", "")),
    ("a rest's time is asked as a current", "Phase::Rest(_) => true", "Phase::Rest(time_s) => time_s <= MOST_CURRENT"),
    ("no rest of 0", REST_TIME, REST_TIME.replace("0.0", "f64::from_bits(1)")),
    ("no rest of -0", REST_TIME, REST_TIME + " && time_s.is_sign_positive()"),
    ("a time below 0", REST_TIME, REST_TIME.replace("0.0", "-f64::from_bits(1)")),
    ("no time of 1e9", REST_TIME, REST_TIME.replace("MOST_REST", as_rust(below(1e9)))),
    ("the time after 1e9", REST_TIME, REST_TIME.replace("MOST_REST", as_rust(above(1e9)))),
    ("any finite time from 0 on", REST_TIME, "crate::table::clock(time_s)"),
    ("an infinite time", REST_TIME, REST_TIME + " || time_s == f64::INFINITY"),
    ("a time that is a NaN", REST_TIME, "!(time_s < 0.0 || time_s > MOST_REST)"),
    ("a charge has its current's own sign", "=> -current_a,", "=> current_a,"),
    ("a discharge has the other sign", "Phase::Discharge(current_a) => current_a,", "Phase::Discharge(current_a) => -current_a,"),
    ("a rest applies -0", "Phase::Rest(_) => 0.0,", "Phase::Rest(_) => -0.0,"),
    ("a rest applies its time", "Phase::Rest(_) => 0.0,", "Phase::Rest(time_s) => time_s,"),
    ("a rest ends with its cutoff too", "!(clock < time_s)", "cutoff || !(clock < time_s)"),
    ("a rest ends by its clock where there is no cutoff", "!(clock < time_s)", "!cutoff && !(clock < time_s)"),
    ("a rest ends after its time", "!(clock < time_s)", "clock > time_s"),
    ("no cutoff ends a charge", CUT, CUT.replace("Phase::Charge(_) | ", "") + "\n            Phase::Charge(_) => false,"),
    ("no cutoff ends a discharge", CUT, CUT.replace(" | Phase::Discharge(_)", "") + "\n            Phase::Discharge(_) => false,"),
    ("a charge ends after its first step", CUT, CUT.replace("Phase::Charge(_) | ", "") + "\n            Phase::Charge(_) => true,"),
    ("a discharge ends after its first step", CUT, CUT.replace(" | Phase::Discharge(_)", "") + "\n            Phase::Discharge(_) => true,"),
    ("v_max alone ends a charge", OVER, OVER.replace("report.state.cutoff", "if let Phase::Charge(_) = phase { report.state.voltage > cell.config.numbers[1] } else { report.state.cutoff }")),
    ("v_min alone ends a discharge", OVER, OVER.replace("report.state.cutoff", "if let Phase::Discharge(_) = phase { report.state.voltage < cell.config.numbers[0] } else { report.state.cutoff }")),
    ("no phase ends after its first step", OVER, OVER + " && clock > schedule.dt"),
    ("the phases from the count on are asked", ASKED, "let phases = &self.phases;"),
    ("the first phase alone is asked", ASKED, ASKED.replace("()", "().get(..1).unwrap_or(&[])")),
    ("the first phase is not asked", ASKED, ASKED.replace("()", "().get(1..).unwrap_or(&[])")),
    ("the last phase is not asked", ASKED, ASKED.replace("()", "().split_last().map_or(&[][..], |(_, others)| others)")),
    ("phases that the budget does not reach are not asked", ASKED, ASKED.replace("()", "();\n        let phases = &phases[..phases.len().min(self.budget as usize)]")),
    ("no phase is enough", PHASES_IN, "(0..=PLACES as u64)"),
    ("two phases at least", PHASES_IN, "(2..=PLACES as u64)"),
    ("seven phases at most", PHASES_IN, "(1..PLACES as u64)"),
    ("nine phases", PHASES_IN, "(1..=1 + PLACES as u64)"),
    ("no repeat is enough", REPEATS_IN, "(0..=MOST_REPEATS)"),
    ("two repeats at least", REPEATS_IN, "(2..=MOST_REPEATS)"),
    ("999 repeats at most", REPEATS_IN, "(1..MOST_REPEATS)"),
    ("1,001 repeats", REPEATS_IN, "(1..=MOST_REPEATS + 1)"),
    ("no step is enough", BUDGET_IN, "(0..=MOST_BUDGET)"),
    ("a budget of two at least", BUDGET_IN, "(2..=MOST_BUDGET)"),
    ("a budget of 99,999 at most", BUDGET_IN, "(1..MOST_BUDGET)"),
    ("a budget of 100,001", BUDGET_IN, "(1..=MOST_BUDGET + 1)"),
    ("the count is not asked", PHASES_IN + ".contains(&self.count) && ", ""),
    ("the repeats are not asked", REPEATS_IN + ".contains(&self.repeats) && ", ""),
    ("the budget is not asked", " && " + BUDGET_IN + ".contains(&self.budget)", ""),
    ("2 for the counts", "met.when(1, !self.counts_fit());", "met.when(2, !self.counts_fit());"),
    ("the rows are not asked", f"        met.when(10, {ROOM});\n", ""),
    ("eight places are enough", ROOM, "places < ROW"),
    ("a row more than the budget", ROOM, ROOM.replace("<", "<=")),
    ("a row fewer than the budget", ROOM, "((places / ROW) as u64) + 1 < self.budget"),
    ("the last row may be short", ROOM, ROOM.replace("places / ROW", "places.div_ceil(ROW)")),
    ("8 times the budget, modulo 2^64", ROOM, "(places as u64) < self.budget.wrapping_mul(ROW as u64)", because("1 comes before 10, and no budget that it lets pass is so large")),
    ("the currents are not asked", "        met.when(3, !phases.iter().all(|phase| phase.current_fits()));\n", ""),
    ("the interval is not asked before the first step", TIMES, TIMES.replace("!interval(self.dt) || ", "")),
    ("the times are not asked", TIMES, "!interval(self.dt)"),
    ("the temperature is not asked before the first step", "        met.when(5, !TEMPERATURE.holds(self.temp_k));\n", "", FIRST_STEP),
    ("3 for a time", f"met.when(4, {TIMES});", "met.when(4, !interval(self.dt));\n        met.when(3, !phases.iter().all(|phase| phase.time_fits()));"),
    ("2 for a time", f"met.when(4, {TIMES});", "met.when(4, !interval(self.dt));\n        met.when(2, !phases.iter().all(|phase| phase.time_fits()));"),
    ("2 for a current", "met.when(3, !phases", "met.when(2, !phases"),
    ("the cell is not asked before the first step", "let mut met = self.met();", "let mut met = Met::default();"),
    before(1, 10, "((places / ROW) as u64) < schedule.budget"),
    before(1, 2, "self.met().refuse() == Err(2)"),
    before(10, 2, "self.met().refuse() == Err(2)"),
    before(10, 3, NO_CURRENT),
    before(2, 3, NO_CURRENT),
    before(2, 4, f"({NO_TIME} || !interval(schedule.dt))"),
    before(3, 4, "!interval(schedule.dt)"),
    before(4, 5, "!TEMPERATURE.holds(schedule.temp_k)"),
    ("4 before 3 where a rest stands before", *before(3, 4, "schedule.first_phases().iter().find(|phase| !phase.current_fits() || !phase.time_fits()).is_some_and(|phase| !phase.time_fits())")[1:]),
    ("6 before 3", MEET, MEET + "\n        if met.refuse() == Err(3) && self.step(0.0, schedule.dt, schedule.temp_k).err() == Some(6) {\n            return refused(self, 6);\n        }"),
    ("a repeat fewer", WRITTEN_OUT, WRITTEN_OUT.replace("self.repeats as usize", "(self.repeats as usize - 1).max(1)")),
    ("a repeat more", WRITTEN_OUT, WRITTEN_OUT.replace("self.repeats as usize", "self.repeats as usize + 1")),
    ("the repeats are not made", WRITTEN_OUT, WRITTEN_OUT.replace("self.repeats as usize", "(self.repeats as usize).min(1)")),
    ("each phase is repeated by itself", WRITTEN_OUT, rearranged("first[k / self.repeats as usize]")),
    ("the last phase first", WRITTEN_OUT, rearranged("first[first.len() - 1 - k % first.len()]")),
    ("every other repeat backwards", WRITTEN_OUT, rearranged("first[if k / first.len() % 2 == 0 { k % first.len() } else { first.len() - 1 - k % first.len() }]")),
    ("a phase more than the count", WRITTEN_OUT, WRITTEN_OUT.replace("self.first_phases()", "self.phases[..PLACES.min(self.count as usize + 1)]")),
    ("the first phase of the first repeat is left out", PHASE, PHASE.replace("at]", "at.max(1).min(phases.len() - 1)]")),
    ("each step from the first cell", "cell.step(phase.current()", "self.step(phase.current()"),
    ("298.15 for both t_ref", PHASE, PHASE + "\n            (cell.anode.sheet.numbers[9], cell.cathode.sheet.numbers[9]) = (298.15, 298.15);"),
    ("a rest of 0 makes no step", PHASE, PHASE + "\n            if phase == Phase::Rest(0.0) && at + 1 < phases.len() {\n                at += 1;\n                continue;\n            }"),
    ("a refused step has a row", REFUSED, REFUSED.replace("break", "{ rows.push([0.0; ROW]); break").replace("),", ") }")),
    ("a refused step takes the rows above", REFUSED, REFUSED.replace("break", "{ rows.clear(); break").replace("),", ") }"), ALWAYS_FIRST),
    ("a refused step takes the cell", REFUSED, REFUSED.replace("break", "{ cell = self.clone(); break").replace("),", ") }"), ALWAYS_FIRST),
    ("a refused step has no number", REFUSED, "Err(number) => break (Ending::Refused, 0 * number),"),
    ("a refused step is spent", REFUSED, "Err(number) => break (Ending::Spent, number),"),
    ("a refused step is done", REFUSED, "Err(number) => break (Ending::Done, number),"),
    ("the cell stays as it was", "            cell = next;\n", "            let _ = next;\n"),
    ("the cutoff's row is left out", "rows.push(report.row());", "if !report.state.cutoff {\n                rows.push(report.row());\n            }"),
    ("the cutoff's cell is left out", "cell = next;", "if !report.state.cutoff {\n                cell = next;\n            }"),
    ("the clock is not set back", MOVED, "at += 1;"),
    ("the clock is set back to the interval", MOVED, MOVED.replace("0.0", "schedule.dt")),
    ("the clock is set back at each repeat only", MOVED, "at += 1;\n                if at as u64 % schedule.count == 0 {\n                    clock = 0.0;\n                }"),
    ("a rest alone sets the clock back", MOVED, "at += 1;\n                if let Phase::Rest(_) = phase {\n                    clock = 0.0;\n                }"),
    ("a phase is passed over", MOVED, MOVED.replace("at + 1", "(at + 2).min(phases.len())")),
    ("the clock is asked before it is raised", RAISED + ENDED, ENDED[:-1] + " else {\n                clock += schedule.dt;\n            }\n"),
    ("the clock is not raised", RAISED, ""),
    ("the clock is raised by a charge or discharge only", RAISED, "            if phase.current() != 0.0 {\n                clock += schedule.dt;\n            }\n"),
    ("the clock is raised before the first step", "let (mut at, mut clock) = (0, 0.0);", "let (mut at, mut clock) = (0, schedule.dt);"),
    ("the clock is steps times interval", RAISED + ENDED, "            clock += 1.0;\n" + ENDED.replace("clock)", "clock * schedule.dt)", 1)),
    ("the clock is the cell's", OVER, OVER.replace("clock", "cell.time_s")),
    ("spent before done", IS_DONE + IS_SPENT, IS_SPENT + IS_DONE),
    ("spent a step early", MADE, "rows.len() as u64 + 1 >= schedule.budget"),
    ("spent a step late", MADE, "rows.len() as u64 > schedule.budget"),
    ("spent by the places", MADE, "rows.len() >= places / ROW"),
    ("spent in a phase only", MADE, MADE + " && clock > 0.0"),
    ("spent between two phases is done", "(Ending::Spent, 0)", "(if clock > 0.0 { Ending::Spent } else { Ending::Done }, 0)"),
    ("spent before the last phase is done", "(Ending::Spent, 0)", "(if at + 1 < phases.len() { Ending::Done } else { Ending::Spent }, 0)"),
    ("spent is full", "Ending::Spent", "Ending::Full"),
    ("spent is time", "Ending::Spent", "Ending::Time"),
    ("done is time", "Ending::Done", "Ending::Time"),
    ("done by a cutoff is voltage", "(Ending::Done, 0)", "(if report.state.cutoff { Ending::Voltage } else { Ending::Done }, 0)"),
    ("done by a discharge is voltage", "(Ending::Done, 0)", "(if let Phase::Discharge(_) = phase { Ending::Voltage } else { Ending::Done }, 0)"),
    ("done when the last phase begins", "at == phases.len()", "at + 1 >= phases.len()"),
]

CALLS_ELECTROLYTE = [
    *ends_of_t_ref(7),
    ("e_a_kappa and t_ref exchanged", "e_a_de, e_a_kappa, t_ref] = self.numbers", "e_a_de, t_ref, e_a_kappa] = self.numbers"),
    ("the record's t_ref is 298.15", "e_a_de, e_a_kappa, t_ref }", "e_a_de, e_a_kappa, t_ref: 0.0 * t_ref + 298.15 }"),
    ("rates: 5 for t_ref", "met.when(2, !self.fits() ||", "met.when(if RANGES[7].holds(self.numbers[7]) { 2 } else { 5 }, !self.fits() ||"),
    ("regions of no node", "(1..=MOST_NODES)", "(0..=MOST_NODES)"),
    ("regions of two nodes at least", "(1..=MOST_NODES)", "(2..=MOST_NODES)"),
    ("regions of 31 nodes at most", "(1..=MOST_NODES)", "(1..MOST_NODES)"),
    ("the counts are not asked", "met.when(1, !self.counts.iter().all(|n| (1..=MOST_NODES).contains(n)));", ""),
    ("the anode's count is not asked", "!self.counts.iter().all", "!self.counts.iter().skip(1).all"),
    ("the cathode's count is not asked", "!self.counts.iter().all", "!self.counts.iter().take(2).all"),
    ("the lengths are not asked", "self.lengths.iter().all(|x| LENGTH.holds(*x)) && ", ""),
    ("the porosities are not asked", " && self.porosities.iter().all(|x| POROSITY.holds(*x))", ""),
    ("the parameters are not asked", "!self.params.fits() || !in_range", "!in_range"),
    ("rates: the parameters are not asked", "!self.fits() || !POROSITY", "!POROSITY"),
    ("rates: the porosity is not asked", " || !POROSITY.holds(porosity)", ""),
    ("rates: the temperature is not asked", "        met.when(5, !TEMPERATURE.holds(temp_k));\n", "", nth(1)),
    ("the places are not asked", "        met.when(2, !places(&self.c_e, used as usize, |x| FLOOR.holds(x)));\n", "        let _ = used;\n"),
    ("n_total: the electrolyte is not asked", "        self.met().refuse()?;\n        Ok(", "        Ok("),
    ("c_avg: the electrolyte is not asked", "        self.met().refuse()?;\n        finite(", "        finite("),
    ("step: the anode's source is not asked", "!load(j_n_neg, MOST_SOURCE) || ", ""),
    ("step: the cathode's source is not asked", " || !load(j_n_pos, MOST_SOURCE)", ""),
    ("step: the interval is not asked", "        met.when(4, !interval(dt));\n", ""),
    ("step: the temperature is not asked", "        met.when(5, !TEMPERATURE.holds(temp_k));\n", "", nth(2)),
    ("dt_stable: the temperature is not asked", "        met.when(5, !TEMPERATURE.holds(temp_k));\n", "", nth(3)),
    ("step: a profile that is not finite", "        finite_or_8(&[&moved.c_e])?;\n", ""),
]

CALLS_DFN = [
    ("no particle in the anode", "(1..=MOST_X).contains(&n_x_neg)", "(0..=MOST_X).contains(&n_x_neg)"),
    ("two in the anode at least", "(1..=MOST_X).contains(&n_x_neg)", "(2..=MOST_X).contains(&n_x_neg)"),
    ("15 in the anode at most", "(1..=MOST_X).contains(&n_x_neg)", "(1..MOST_X).contains(&n_x_neg)"),
    ("two in the cathode at least", "(1..=MOST_X).contains(&n_x_pos)", "(2..=MOST_X).contains(&n_x_pos)"),
    ("15 in the cathode at most", "(1..=MOST_X).contains(&n_x_pos)", "(1..MOST_X).contains(&n_x_pos)"),
    ("three nodes of a particle at least", "(2..=MOST_R)", "(3..=MOST_R)"),
    ("31 nodes of a particle at most", "(2..=MOST_R)", "(2..MOST_R)"),
    ("17 coefficients", "self.count <= MOST_COEFFICIENTS as u64", "self.count <= 1 + MOST_COEFFICIENTS as u64"),
    ("15 coefficients at most", "self.count <= MOST_COEFFICIENTS as u64", "self.count < MOST_COEFFICIENTS as u64"),
    ("the coefficients' values are not asked", " && places(&self.values, self.count as usize, |x| COEFFICIENT.holds(x))", ""),
    ("the parameters' numbers are not asked", "all_in(&self.numbers, &RANGES) && self", "self"),
    ("the anode's coefficients are not asked", " && self.ocv_neg.fits()", ""),
    ("the cathode's coefficients are not asked", " && self.ocv_pos.fits()", ""),
    ("new: the counts are not asked", "        met.when(1, !config.grid_fits());\n", ""),
    ("new: the parameters are not asked", "!params.fits() || !config", "!config"),
    ("new: the voltages are not asked", "|| !config.voltages.iter().all(|x| VOLTAGE.holds(*x))", ""),
    ("the counts are not asked", "        met.when(1, !self.config.grid_fits());\n", ""),
    ("the parameters are not asked", "self.params.fits()\n            && self", "self"),
    ("the voltages are not asked", "            && self.config.voltages.iter().all(|x| VOLTAGE.holds(*x))\n", ""),
    ("the anode's places are not asked", "            && solid(&self.c_s_neg, n_x_neg, self.params.numbers[6])\n", ""),
    ("the cathode's places are not asked", "            && solid(&self.c_s_pos, n_x_pos, self.params.numbers[12])\n", ""),
    ("the electrolyte's places are not asked", "            && places(&self.c_e, n_x_neg + 1 + n_x_pos, |x| CONCENTRATION.holds(x))\n", ""),
    ("the clock is not asked", "\n            && clock(self.time_s);", ";"),
    ("the anode's places up to the cathode's c_s_max", "n_x_neg, self.params.numbers[6]", "n_x_neg, self.params.numbers[12]"),
    ("no solid place of 0", "range(0.0, c_s_max).holds(x)", "range(f64::from_bits(1), c_s_max).holds(x)"),
    ("a solid place above c_s_max", "range(0.0, c_s_max).holds(x)", "range(0.0, c_s_max.next_up()).holds(x)"),
    ("an electrolyte place fewer", "places(&self.c_e, n_x_neg + 1 + n_x_pos,", "places(&self.c_e, n_x_neg + n_x_pos,"),
    ("what a step overwrites is asked", "&& clock(self.time_s);", "&& clock(self.time_s)\n            && self.overwritten.iter().all(|x| x.is_finite());"),
    ("step: the current is not asked", "        met.when(3, !load(current_a, MOST_CURRENT));\n", "", nth(1)),
    ("step: the interval is not asked", "        met.when(4, !interval(dt_s));\n", ""),
    ("step: 5 for a temperature out of range", "met.when(2, !fields);", "met.when(if RANGES[24].holds(self.params.numbers[24]) { 2 } else { 5 }, !fields);"),
    ("step: an anode that is not finite", "&next.c_s_neg, ", "", FINITE),
    ("step: a cathode that is not finite", "&next.c_s_pos, ", "", FINITE),
    ("step: an electrolyte that is not finite", "&next.c_e, ", ""),
    ("step: a clock that is not finite", "&[next.time_s], ", "", FINITE),
    ("step: overwritten fields that are not finite", "&next.overwritten, ", "", because("the report has the same numbers")),
    (
        "step: a report that is not finite", ", &report_row(&report)])?", "])?",
        because("the overwritten fields have the same numbers, and the largest change passes over a NaN and is finite"),
    ),
    ("report: cutoff the other way", "if s.cutoff { 1.0 } else { 0.0 }", "if s.cutoff { 0.0 } else { 1.0 }"),
    ("report: the stoichiometries exchanged", "s.theta_neg, s.theta_pos, s.delta", "s.theta_pos, s.theta_neg, s.delta"),
    ("run: the length is not asked", "        met.when(10, places < ROW);\n", ""),
    ("run: nine places at least", "places < ROW", "places <= ROW"),
    ("run: the current is not asked", "        met.when(3, !load(current_a, MOST_CURRENT));\n", "", nth(2)),
    ("run: the interval is not asked", "!interval(dt_s) || !max_time_s", "!max_time_s", FIRST_STEP),
    ("run: the limit is not asked", " || !max_time_s.is_finite()", ""),
    ("run: time is over after its limit", "cell.time_s >= max_time_s", "cell.time_s > max_time_s"),
    ("run: the clock is asked before the first step", "max_time_s, false)", "max_time_s, true)"),
    ("run: its own clock", "cell.time_s >= max_time_s", "cell.time_s - self.time_s >= max_time_s"),
    *summary_lengths(),
]

CALLS_DENSE = [
    ("order 33", "n > MOST_ORDER", "n > MOST_ORDER + 1"),
    ("order 31 at most", "n > MOST_ORDER", "n >= MOST_ORDER"),
    ("the matrix's length is not asked", "a.len() as u64 != n * n || ", ""),
    ("the right side's length is not asked", " || b.len() as u64 != n", ""),
    ("10 is asked of a wrong order too", "n <= MOST_ORDER && (", "(", because("1 comes before 10")),
    ("the matrix's entries are not asked", "!all_finite(a) || !all_finite(b)", "!all_finite(b)"),
    ("the right side's entries are not asked", "!all_finite(a) || !all_finite(b)", "!all_finite(a)"),
    ("8 for 9", "return Err(9);", "return Err(8);"),
    ("a solution that is not finite", "    finite_or_8(&[&x])?;\n", ""),
]


CALLS_WORDS = [
    ("array: a -0 at the end is left out", "bits(*x) != 0)", "*x != 0.0)"),
    ("a NaN keeps its bits", "if x.is_nan() {", "if false {"),
    ("flag: 0 for yes", "u64::from(b)", "u64::from(!b)"),
]

LIMIT = re.compile(r"range\((-?[\d._e-]+), (-?[\d._e-]+|f64::MAX)\)")


def number(text):
    return sys.float_info.max if text == "f64::MAX" else float(text.replace("_", ""))


def limits(file, text):
    """Both ends of each range one binary64 higher: the low end is refused then, and the number after the high end passes."""
    names, seen = [], {}
    for line in text.split("\n"):
        doc = re.fullmatch(r"/// (\w+(?:, \w+)+)", line)
        const = re.match(r"pub const (\w+)", line)
        names = doc.group(1).split(", ") if doc else names
        if const:
            name, place = const.group(1), 0
        for found in LIMIT.finditer(line):
            old, low, high = found.group(0), *(number(end) for end in found.groups())
            remark = re.search(r"// (\w+)$", line)
            label = remark.group(1) if remark else names[place] if name == "RANGES" else name
            place += 1
            seen[old] = seen.get(old, 0) + 1
            one = seen[old] if text.count(old) > 1 else None
            yield Fault(file, f"{label}: its low end", old, f"range({as_rust(above(low))}, {as_rust(high)})", one, "")
            yield Fault(file, f"{label}: above its high end", old, f"range({as_rust(low)}, {as_rust(above(high))})", one, "")


def all_faults(texts):
    """Every fault; `texts` has the right files by their names."""
    tables = [
        ("standins.rs", STANDINS),
        ("sources/electrode.rs", ELECTRODE),
        ("sources/electrolyte.rs", ELECTROLYTE),
        ("sources/solver.rs", SOLVER),
        ("sources/dfn.rs", DFN),
        ("calls/table.rs", TABLE),
        ("calls/runs.rs", RUNS),
        ("calls/electrode.rs", CALLS_ELECTRODE),
        ("calls/particle.rs", CALLS_PARTICLE),
        ("calls/solver.rs", CALLS_SOLVER),
        ("calls/lowest.rs", CALLS_LOWEST),
        ("calls/replay.rs", CALLS_REPLAY),
        ("calls/cycle.rs", CALLS_CYCLE),
        ("calls/electrolyte.rs", CALLS_ELECTROLYTE),
        ("calls/dfn.rs", CALLS_DFN),
        ("calls/dense.rs", CALLS_DENSE),
        ("calls/words.rs", CALLS_WORDS),
    ]
    for file, rows in tables:
        yield from listed(file, rows)
        if file.startswith("calls/"):
            yield from limits(file, texts[file])
