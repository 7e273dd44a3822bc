(declare-datatype Option (par (X) (
  (none)
  (some (val X)))))
; Role
(declare-datatype E0 (
  (E0 (E0_eid String))))
(define-fun t0 () E0 (E0 "admin"))
; User
(declare-datatype E1 (
  (E1 (E1_eid String))))
; "principal"
(declare-const t1 E1)
; User.roles
(declare-fun f0 (E1) (Set E0))
(define-fun t2 () (Set E0) (f0 t1))
(define-fun t3 () Bool (set.member t0 t2))
(define-fun t4 () E1 (E1 "alice"))
(define-fun t5 () Bool (= t1 t4))
(define-fun t6 () Bool (not t5))
(assert t3)
(assert t6)
