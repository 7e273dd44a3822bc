(declare-datatype Option (par (X) (
  (none)
  (some (val X)))))
; "context.x"
(declare-const t0 (_ BitVec 64))
; "context.y"
(declare-const t1 (_ BitVec 64))
(define-fun t2 () Bool (bvsaddo t0 t1))
(assert t2)
