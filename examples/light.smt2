(declare-datatype Option (par (X) (
  (none)
  (some (val X)))))
; Color::[green, red, yellow]
(declare-datatype E0 (
  (E0_m0)
  (E0_m1)
  (E0_m2)))
; "resource.color"
(declare-const t0 E0)
(define-fun t2 () Bool (= t0 E0_m1))
(define-fun t3 () Bool (not t2))
(define-fun t5 () Bool (= t0 E0_m2))
(define-fun t6 () Bool (not t5))
(define-fun t8 () Bool (= t0 E0_m0))
(define-fun t9 () Bool (not t8))
(assert t3)
(assert t6)
(assert t9)
