(declare-datatype Option (par (X) (
  (none)
  (some (val X)))))
(declare-datatype Decimal (
  (Decimal (decimalVal (_ BitVec 64)))))
; "context.first"
(declare-const t0 Decimal)
(define-fun t1 () (_ BitVec 64) (decimalVal t0))
(define-fun t2 () Bool (bvsle (_ bv0 64) t1))
(define-fun t3 () Bool (bvsle t1 (_ bv1005000 64)))
; "context.second"
(declare-const t4 Decimal)
(define-fun t5 () (_ BitVec 64) (decimalVal t4))
(define-fun t6 () Bool (bvsle (_ bv0 64) t5))
(define-fun t7 () Bool (bvsle t5 (_ bv1005000 64)))
(define-fun t8 () (_ BitVec 64) (bvadd t1 t5))
(define-fun t9 () Bool (bvslt (_ bv2010000 64) t8))
(assert t2)
(assert t3)
(assert t6)
(assert t7)
(assert t9)
