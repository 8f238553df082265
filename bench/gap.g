# GAP's times on the list `cases`: a line of a kind's number, and the microseconds of one analysis (RationalCanonicalFormTransform) and of
# one multiplication of the check's equations, in processor time. A case whose answers differ ends the program.
LONG_ENOUGH := 300;;

FieldMatrix := function(c, rows) return List(rows, r -> List(r, x -> x[1] * One(GF(c.p)))); end;;

PolynomialMatrix := function(c, rows)
  return List(rows, r -> List(r, x -> UnivariatePolynomial(GF(c.p), x * One(GF(c.p)), 1)));
end;;

# The objects that GAP computes with, made before any timing.
Prepared := function(c)
  local o, n, x, d;
  n := Length(c.A);
  o := rec(A := FieldMatrix(c, c.A), F := FieldMatrix(c, c.F), T := FieldMatrix(c, c.T), TI := FieldMatrix(c, c.TI),
           P := PolynomialMatrix(c, c.P), PI := PolynomialMatrix(c, c.PI), Q := PolynomialMatrix(c, c.Q), QI := PolynomialMatrix(c, c.QI));
  x := Indeterminate(GF(c.p), 1);
  d := PolynomialMatrix(c, c.D)[1];
  o.unit := One(x) * IdentityMat(n, GF(c.p));
  o.D := List([1 .. n], i -> List([1 .. n], function(j) if i = j then return d[i]; fi; return Zero(x); end));
  o.XA := x * IdentityMat(n, GF(c.p)) - o.A * One(x);
  return o;
end;;

Holds := function(o)
  return o.P * o.PI = o.unit and o.Q * o.QI = o.unit and o.P * o.XA = o.D * o.QI
         and IsOne(o.T * o.TI) and o.A * o.T = o.T * o.F;
end;;

# GAP's canonical form is that of the certificate: the same F, as both put the smallest block first and the coefficients last.
SameForm := function(o) return o.A ^ RationalCanonicalFormTransform(o.A) = o.F; end;;

# Microseconds of one call, from as many as take LONG_ENOUGH milliseconds of processor time.
Taken := function(f, objects)
  local calls, start, o;
  calls := 0;
  start := Runtime();
  repeat
    for o in objects do f(o); od;
    calls := calls + Length(objects);
  until Runtime() - start >= LONG_ENOUGH;
  return Float((Runtime() - start) * 1000 / calls);
end;;

for kind in Set(cases, c -> c.kind) do
  objects := List(Filtered(cases, c -> c.kind = kind), Prepared);
  if not ForAll(objects, Holds) or not ForAll(objects, SameForm) then
    PrintTo("*errout*", "GAP does not agree on kind ", kind, "\n");
    QuitGap(1);
  fi;
  Print(kind, " ", Taken(o -> RationalCanonicalFormTransform(o.A), objects), " ", Taken(Holds, objects), "\n");
od;
QuitGap(0);
