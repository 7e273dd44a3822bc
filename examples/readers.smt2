(declare-datatype Option (par (X) (
  (none)
  (some (val X)))))
; Action::[read, write]
(declare-datatype E0 (
  (E0_m0)
  (E0_m1)))
; "action"
(declare-const t0 E0)
(define-fun t2 () Bool (= t0 E0_m0))
; User
(declare-datatype E1 (
  (E1 (E1_eid String))))
; "principal"
(declare-const t3 E1)
; User.clearance
(declare-fun f0 (E1) (_ BitVec 64))
(define-fun t4 () (_ BitVec 64) (f0 t3))
; Document
(declare-datatype E2 (
  (E2 (E2_eid String))))
; "resource"
(declare-const t5 E2)
; Document.level
(declare-fun f1 (E2) (_ BitVec 64))
(define-fun t6 () (_ BitVec 64) (f1 t5))
(define-fun t7 () Bool (bvslt t4 t6))
; Document.owner
(declare-fun f2 (E2) E1)
(define-fun t8 () E1 (f2 t5))
(define-fun t9 () Bool (= t3 t8))
(define-fun t10 () Bool (not t9))
(assert t2)
(assert t7)
(assert t10)
(check-sat)
(push 1)
(assert t9)
(check-sat)
(pop 1)
(push 1)
(define-fun t11 () Bool (bvsle t6 t4))
(assert t11)
(check-sat)
(pop 1)
(push 1)
; Document.readers
(declare-fun f3 (E2) (Set E1))
(define-fun t11 () (Set E1) (f3 t5))
(define-fun t12 () Bool (set.member t3 t11))
(assert t12)
(check-sat)
(pop 1)
