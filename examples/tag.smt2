(declare-datatype Option (par (X) (
  (none)
  (some (val X)))))
; User
(declare-datatype E0 (
  (E0 (E0_eid String))))
; "principal"
(declare-const t0 E0)
; User.tags
(declare-fun f0 (E0) (Set String))
(define-fun t1 () (Set String) (f0 t0))
(define-fun t2 () Bool (set.member "team" t1))
; {entity, tag}
(declare-datatype R1 (
  (R1 (R1_a0 E0) (R1_a1 String))))
(define-fun t3 () R1 (R1 t0 "team"))
; User.tag
(declare-fun f1 (R1) String)
(define-fun t4 () String (f1 t3))
; {team}
(declare-datatype R2 (
  (R2 (R2_a0 String))))
; "context"
(declare-const t5 R2)
(define-fun t6 () String (R2_a0 t5))
(define-fun t7 () Bool (= t4 t6))
(define-fun t8 () Bool (str.in_re t6 (re.++ (str.to_re "b") (str.to_re "l") (str.to_re "u") (str.to_re "e") (str.to_re "-") (re.* re.allchar))))
(define-fun t9 () Bool (= t4 "red"))
(assert t2)
(assert t7)
(assert t8)
(assert t9)
