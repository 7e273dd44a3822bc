(declare-datatype Option (par (X) (
  (none)
  (some (val X)))))
(declare-datatype Datetime (
  (Datetime (datetimeVal (_ BitVec 64)))))
(declare-datatype IPAddr (
  (V4 (addrV4 (_ BitVec 32)) (prefixV4 (Option (_ BitVec 5))))
  (V6 (addrV6 (_ BitVec 128)) (prefixV6 (Option (_ BitVec 7))))))
; {dept, joined, src}
(declare-datatype R2 (
  (R2 (R2_a0 String) (R2_a1 Datetime) (R2_a2 IPAddr))))
; User
(declare-datatype E3 (
  (E3 (E3_eid String))))
; "principal"
(declare-const t0 E3)
; attrs[User]
(declare-fun f0 (E3) R2)
(define-fun t1 () R2 (f0 t0))
(define-fun t2 () String (R2_a0 t1))
(define-fun t3 () Bool (str.in_re t2 (re.++ (str.to_re "e") (str.to_re "n") (str.to_re "g") (re.* re.allchar))))
; tags[User]
(declare-fun f1 (E3) (Set String))
(define-fun t4 () (Set String) (f1 t0))
(define-fun t5 () Bool (set.member "vpn" t4))
(define-fun t6 () IPAddr (R2_a2 t1))
(define-fun t7 () Bool ((_ is V4) t6))
(define-fun t8 () (_ BitVec 32) (addrV4 t6))
(define-fun t9 () (_ BitVec 32) (bvlshr t8 (_ bv24 32)))
(define-fun t10 () Bool (= t9 (_ bv10 32)))
(define-fun t11 () (Option (_ BitVec 5)) (prefixV4 t6))
(define-fun t12 () (Option (_ BitVec 5)) (as none (Option (_ BitVec 5))))
(define-fun t13 () Bool (= t11 t12))
(define-fun t14 () (_ BitVec 5) (val t11))
(define-fun t15 () Bool (bvule (_ bv8 5) t14))
(define-fun t16 () Bool (or t13 t15))
(define-fun t17 () Datetime (R2_a1 t1))
(define-fun t18 () (_ BitVec 64) (datetimeVal t17))
(define-fun t19 () Bool (bvslt t18 (_ bv1728950400000 64)))
(assert t3)
(assert t5)
(assert t7)
(assert t10)
(assert t16)
(assert t19)
