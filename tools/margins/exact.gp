\\ Crossovers and margins of a loop from the roots of its polynomials, with 60 digits.
\\
\\ B and A are the coefficients of plant times controller, numerator and denominator, in rising
\\ powers of 1/z. On the unit circle |B|^2 and |A|^2 are polynomials in c = cos(w), and the imaginary
\\ part of B times the conjugate of A is sin(w) times one, so each crossover is acos of a real root,
\\ isolated by Sturm's method. With each value stands what linear interpolation on the program's grid
\\ may miss it by: h^2/8 times the greatest second derivative between the two readings about it.

default(realprecision, 60);

\\ The real part of p(x) q(1/x) on the circle, as a polynomial in c.
even(p, q) = sum(i = 1, #p, sum(j = 1, #q, p[i] * q[j] * polchebyshev(abs(i - j), 1, 'c)));
\\ Its imaginary part by sin(w), where x = exp(-iw).
{odd(p, q) = sum(i = 1, #p, sum(j = 1, #q,
    if(i == j, 0, sign(j - i) * p[i] * q[j] * polchebyshev(abs(i - j) - 1, 2, 'c))))};

\\ The frequencies between 0 and Pi at which a polynomial in c is 0, rising.
frequencies(p) = vecsort([acos(c) | c <- polrootsreal(p, [-1, 1]), abs(c) < 1]);

value(p, w) = sum(i = 1, #p, p[i] * exp(-I * w * (i - 1)));
decibels(z) = 20 * log(abs(z)) / log(10);

\\ The two readings about w.
{grid(w, lowest, n) =
    my(ratio = (Pi / lowest)^(1 / (n - 1)), i = min(floor(log(w / lowest) / log(ratio)), n - 2));
    [lowest * ratio^i, lowest * ratio^(i + 1)]};

\\ How far the chord of f over a pair may lie from f.
places(pair) = [pair[1], (pair[1] + pair[2]) / 2, pair[2]];
sag(f, pair) = (pair[2] - pair[1])^2 / 8 * 1.1 * vecmax([abs(derivnum(w = x, f(w), 2)) | x <- places(pair)]);
slopes(f, pair) = [abs(derivnum(w = x, f(w))) | x <- places(pair)];

show(name, exact, allowed) = printf("%s %.25g %.6g\n", name, exact, allowed);

{report(B, A, lowest, n) =
    my(L = (w) -> value(B, w) / value(A, w),
       dB = (w) -> decibels(L(w)),
       closed = concat(A, vector(max(0, #B - #A))) + concat(B, vector(max(0, #A - #B))),
       T = (w) -> decibels(value(B, w) / value(closed, w)),
       pair, miss, phase);
    show("outermost", vecmax(abs(polroots(Pol(closed)))), 0);

    my(gain = select(w -> w > lowest, frequencies(even(B, B) - even(A, A))));
    show("crossings", #gain, 0);
    if(#gain,
        pair = grid(gain[1], lowest, n);
        miss = sag(dB, pair) / vecmin(slopes(dB, pair));
        show("gain_crossover", gain[1], miss);
        \\ The phase near the crossover, without a jump.
        phase = ((w) -> arg(L(w) / L(gain[1])) * 180 / Pi);
        show("phase_margin_degrees", 180 + arg(L(gain[1])) * 180 / Pi,
             sag(phase, pair) + vecmax(slopes(phase, pair)) * miss));

    \\ At Pi the response is real, so the phase may reach -180 degrees there, at the grid's end.
    my(half = select(w -> w > lowest && real(L(w)) < 0, concat(frequencies(odd(B, A)), [Pi])));
    if(#half,
        pair = grid(half[1], lowest, n);
        phase = ((w) -> arg(L(w) / L(half[1])) * 180 / Pi);
        miss = sag(phase, pair) / vecmin(slopes(phase, pair));
        show("phase_crossover", half[1], miss);
        show("gain_margin_db", -dB(half[1]), sag(dB, pair) + vecmax(slopes(dB, pair)) * miss));

    my(level = abs(value(B, lowest) / value(closed, lowest))^2 / 10^(3/10));
    my(falls = select(w -> w > lowest && derivnum(x = w, T(x)) < 0, frequencies(even(B, B) - level * even(closed, closed))));
    if(#falls,
        pair = grid(falls[1], lowest, n);
        show("bandwidth", falls[1], sag(T, pair) / vecmin(slopes(T, pair))));

    my(f = even(closed, closed), g = even(A, A), away = (w) -> abs(1 + L(w)),
       turns = concat([w | w <- frequencies(deriv(f, 'c) * g - f * deriv(g, 'c)), w > lowest], [lowest, Pi]),
       distances = apply(away, turns), least = vecmin(distances),
       place = turns[select(i -> distances[i] == least, [1 .. #turns])[1]]);
    pair = grid(place, lowest, n);
    show("closest_approach", least, sag(away, pair));
}
