# Reads the output of `trlab sweep` of `nasch` with limit 1 and the braking probability `q`. Prints the cars, the flow of
# the stationary state on a ring with these numbers of cells and cars, and the measured flow.
function choose(n, k) { return k < 0 || k > n ? 0 : k == 0 ? 1 : choose(n - 1, k - 1) * n / k }
BEGIN { FS = "," }
NR == 1 { next }
{
    N = $1; E = $2 - N; sum = weight = 0
    for (k = 1; k <= N && k <= E; k++) {
        roads = choose(N - 1, k - 1) * choose(E - 1, k - 1) * q ^ (N - k)
        sum += roads
        weight += roads * $2 / k
    }
    printf "%d cars: exact %.4f, measured %.4f\n", N, weight ? (1 - q) * sum / weight : 0, $7 / 1000000
}
