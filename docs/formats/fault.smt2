; A fault on purpose, for smtlib.md.
(set-logic QF_LRA)
(declare-const x0 Real)
(declare-const r0 Real)
(assert (= r0 (* 2 x0)))
(assert (> x0 03))
(check-sat)
