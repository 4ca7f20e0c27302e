/** A method of more locals than a byte can number, and steps that a byte can't hold. */
public class Locals {
    static int many(int n) {
        int a0 = n, a1 = 0, a2 = -2, a3 = n, a4 = -4, a5 = 0, a6 = n, a7 = 0, a8 = -8, a9 = n;
        int b0 = 0, b1 = 1, b2 = n, b3 = 1, b4 = -4, b5 = n, b6 = -6, b7 = 1, b8 = n, b9 = 1;
        int c0 = 0, c1 = n, c2 = -2, c3 = 2, c4 = n, c5 = 2, c6 = -6, c7 = n, c8 = -8, c9 = 2;
        int d0 = n, d1 = 3, d2 = -2, d3 = n, d4 = -4, d5 = 3, d6 = n, d7 = 3, d8 = -8, d9 = n;
        int e0 = 0, e1 = 4, e2 = n, e3 = 4, e4 = -4, e5 = n, e6 = -6, e7 = 4, e8 = n, e9 = 4;
        int f0 = 0, f1 = n, f2 = -2, f3 = 5, f4 = n, f5 = 5, f6 = -6, f7 = n, f8 = -8, f9 = 5;
        int g0 = n, g1 = 6, g2 = -2, g3 = n, g4 = -4, g5 = 6, g6 = n, g7 = 6, g8 = -8, g9 = n;
        int h0 = 0, h1 = 7, h2 = n, h3 = 7, h4 = -4, h5 = n, h6 = -6, h7 = 7, h8 = n, h9 = 7;
        int i0 = 0, i1 = n, i2 = -2, i3 = 8, i4 = n, i5 = 8, i6 = -6, i7 = n, i8 = -8, i9 = 8;
        int j0 = n, j1 = 9, j2 = -2, j3 = n, j4 = -4, j5 = 9, j6 = n, j7 = 9, j8 = -8, j9 = n;
        int k0 = 0, k1 = 10, k2 = n, k3 = 10, k4 = -4, k5 = n, k6 = -6, k7 = 10, k8 = n, k9 = 10;
        int l0 = 0, l1 = n, l2 = -2, l3 = 11, l4 = n, l5 = 11, l6 = -6, l7 = n, l8 = -8, l9 = 11;
        int m0 = n, m1 = 12, m2 = -2, m3 = n, m4 = -4, m5 = 12, m6 = n, m7 = 12, m8 = -8, m9 = n;
        int n0 = 0, n1 = 13, n2 = n, n3 = 13, n4 = -4, n5 = n, n6 = -6, n7 = 13, n8 = n, n9 = 13;
        int o0 = 0, o1 = n, o2 = -2, o3 = 14, o4 = n, o5 = 14, o6 = -6, o7 = n, o8 = -8, o9 = 14;
        int p0 = n, p1 = 15, p2 = -2, p3 = n, p4 = -4, p5 = 15, p6 = n, p7 = 15, p8 = -8, p9 = n;
        int q0 = 0, q1 = 16, q2 = n, q3 = 16, q4 = -4, q5 = n, q6 = -6, q7 = 16, q8 = n, q9 = 16;
        int r0 = 0, r1 = n, r2 = -2, r3 = 17, r4 = n, r5 = 17, r6 = -6, r7 = n, r8 = -8, r9 = 17;
        int s0 = n, s1 = 18, s2 = -2, s3 = n, s4 = -4, s5 = 18, s6 = n, s7 = 18, s8 = -8, s9 = n;
        int t0 = 0, t1 = 19, t2 = n, t3 = 19, t4 = -4, t5 = n, t6 = -6, t7 = 19, t8 = n, t9 = 19;
        int u0 = 0, u1 = n, u2 = -2, u3 = 20, u4 = n, u5 = 20, u6 = -6, u7 = n, u8 = -8, u9 = 20;
        int v0 = n, v1 = 21, v2 = -2, v3 = n, v4 = -4, v5 = 21, v6 = n, v7 = 21, v8 = -8, v9 = n;
        int w0 = 0, w1 = 22, w2 = n, w3 = 22, w4 = -4, w5 = n, w6 = -6, w7 = 22, w8 = n, w9 = 22;
        int x0 = 0, x1 = n, x2 = -2, x3 = 23, x4 = n, x5 = 23, x6 = -6, x7 = n, x8 = -8, x9 = 23;
        int y0 = n, y1 = 24, y2 = -2, y3 = n, y4 = -4, y5 = 24, y6 = n, y7 = 24, y8 = -8, y9 = n;
        int z0 = 0, z1 = 25, z2 = n, z3 = 25, z4 = -4, z5 = n, z6 = -6, z7 = 25, z8 = n, z9 = 25;
        Object first = new Object();
        Object second = n > 0 ? first : null;
        int[] kept = {a0, m5, z9};
        for (z9 = 0; z9 < 10; z9++) z8 += 1000;
        for (a1 = 5; a1 > 0; a1--) a2 -= 30000;
        b1 += 127;
        b2 += 128;
        b3 -= 128;
        b4 -= 129;
        y0 = z8 + a2 + kept[2];
        return first == second ? y0 + b1 + b2 + b3 + b4 + kept[0] + kept[1] : -y0;
    }

    public static void main(String[] words) {
        System.out.println(many(0));
        System.out.println(many(1));
    }
}
