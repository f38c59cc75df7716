# The names of a C text, a line each, for ctext.c: sh names.sh ladder.c >ladder.names
sed -n '
    s/^static int b_\(X[A-Za-z0-9_]*\);$/INPUT(\1)/p
    s/^static int b_\(Y[A-Za-z0-9_]*\);$/OUTPUT(\1)/p
    s/^static int b_\(R[A-Za-z0-9_]*\);$/RELAY(\1)/p
    s/^static int v_\([A-Za-z0-9_]*\) = .*;$/VARIABLE(\1)/p
    s/^static int s_\([A-Za-z0-9_]*\);$/PERSISTENT(\1)/p
' "$1"
# analog names by their numbers, each once
sed -n 's/^if (f) v_\([A-Za-z0-9_]*\) = ld_adc(\([0-9]*\));$/\2 ANALOG(\1)/p' "$1" | sort -n -u | sed 's/^[0-9]* //'
sed -n '/^if (f) ld_pwm(/{s/.*/PWM/p;q;}' "$1"
