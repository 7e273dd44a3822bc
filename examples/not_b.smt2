(declare-datatype Option (par (X) (
  (none)
  (some (val X)))))
; "b"
(declare-const t0 Bool)
(define-fun t1 () Bool (not t0))
(assert t1)
