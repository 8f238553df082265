\\ Writes the vectors of tests/vectors/pari.txt: matrices of many kinds with their invariant polynomials from matfrobenius.
\\ A line: p n : the entries, row by row : the polynomials that are not 1, in rising order, each as its coefficients, constant term first.
\\ Run as: gp -q tools/vectors.gp > tests/vectors/pari.txt
setrand(20261115);
entries(n, p) = matrix(n, n, i, j, random(p));
invertible(n, p) = { my(m); until(matdet(m * Mod(1, p)) != 0, m = entries(n, p)); m };
lower(n, p) = matrix(n, n, i, j, if(i > j, random(p), 0));
sparse(n, p) = matrix(n, n, i, j, if(random(4) == 0, random(p), 0));
diagonal(n, p) = matrix(n, n, i, j, if(i == j, random(min(p, 4)), 0));
companion(n, p) = matrix(n, n, i, j, if(j == n, random(p), i == j + 1, 1, 0));
permutation(n, p) = { my(s = numtoperm(n, random(n!))); matrix(n, n, i, j, i == s[j]) };
repeated(n, p) = { my(k = 1 + random(3), b = entries(k, p)); matrix(n, n, i, j, if((i - 1) \ k == (j - 1) \ k, b[1 + (i - 1) % k, 1 + (j - 1) % k], 0)) };
conjugate(m, n, p) = { my(c = invertible(n, p)); lift(c * m * (c * Mod(1, p))^-1) };
kinds = [(n, p) -> entries(n, p), (n, p) -> sparse(n, p), (n, p) -> lower(n, p), (n, p) -> diagonal(n, p), (n, p) -> companion(n, p), (n, p) -> permutation(n, p), (n, p) -> repeated(n, p), (n, p) -> matid(n), (n, p) -> matrix(n, n), (n, p) -> conjugate(repeated(n, p), n, p), (n, p) -> conjugate(lower(n, p), n, p), (n, p) -> conjugate(diagonal(n, p), n, p), (n, p) -> conjugate(matid(n) * random(p), n, p)];
coefficients(f) = Vecrev(lift(f));
show(v) = for(k = 1, #v, print1(" ", v[k]));
vector_line(m, n, p) = {
  my(d = matfrobenius(m * Mod(1, p), 1));
  print1(p, " ", n, " :");
  for(i = 1, n, for(j = 1, n, print1(" ", lift(m[i, j] * Mod(1, p)))));
  print1(" :");
  for(k = 1, #d, if(k > 1, print1(" ;")); show(coefficients(d[#d + 1 - k])));
  print();
};
primes_tried = [2, 3, 5, 7, 127, 241, 251];
\\ how many of each kind, prime and order
many = [5, 5, 3, 3, 3, 3, 3, 1, 1, 4, 4, 4, 4];
for(a = 1, #primes_tried, for(n = 1, 12, for(k = 1, #kinds, for(r = 1, many[k], vector_line(kinds[k](n, primes_tried[a]), n, primes_tried[a])))));
quit;
