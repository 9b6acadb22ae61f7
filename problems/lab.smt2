; Two heaters of the lab. Both together need more than 3.
(set-logic QF_LRA)

(declare-const x0 Real) (declare-const x1 Real) ; the heaters
(declare-const r0 Real)                         ; what both give

(assert (= r0
  (+ (* 1 x0)
     (* 1 x1))))
(assert (> x0 0))     ; it is on
(assert (< x1 3))     ; (< x1 4) would melt it
(assert ( > r0 3 ) )
(check-sat)
