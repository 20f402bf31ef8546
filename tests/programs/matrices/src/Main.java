/** Arrays of arrays: products, triangles, and rows that several places share. */
public class Main {
    static boolean TRANSPOSED;
    static boolean SHARED;
    static boolean LARGE;
    static boolean RAGGED;

    private static long[][] product(long[][] a, long[][] b) {
        long[][] c = new long[a.length][b[0].length];
        for (int i = 0; i < a.length; i++) {
            for (int j = 0; j < b[0].length; j++) {
                for (int k = 0; k < b.length; k++) {
                    c[i][j] += a[i][k] * b[k][j];
                }
            }
        }
        return c;
    }

    private static long[][] transposed(long[][] a) {
        long[][] b = new long[a[0].length][a.length];
        for (int i = 0; i < a.length; i++) {
            for (int j = 0; j < a[i].length; j++) {
                b[j][i] = a[i][j];
            }
        }
        return b;
    }

    private static void print(long[][] a) {
        for (long[] row : a) {
            StringBuilder line = new StringBuilder();
            for (long cell : row) {
                line.append(cell).append(' ');
            }
            System.out.println(line.toString());
        }
    }

    public static void main(String[] arguments) {
        int n = LARGE ? 3 : 2;
        long[][] a = new long[n][n + 1];
        for (int i = 0; i < n; i++) {
            for (int j = 0; j <= n; j++) {
                a[i][j] = (i + 1) * (j + 2);
            }
        }
        if (SHARED) {
            a[n - 1] = a[0];
            a[0][0] = 1000;
        }
        long[][] b = transposed(a);
        print(TRANSPOSED ? product(b, a) : product(a, b));

        int[][] triangle = new int[5][];
        for (int i = 0; i < triangle.length; i++) {
            triangle[i] = new int[RAGGED && i == 3 ? 2 : i + 1];
            triangle[i][0] = 1;
            for (int j = 1; j < triangle[i].length; j++) {
                triangle[i][j] = triangle[i - 1][j - 1] + (j < triangle[i - 1].length ? triangle[i - 1][j] : 0);
            }
        }
        int sum = 0;
        for (int[] row : triangle) {
            for (int cell : row) {
                sum += cell;
            }
        }
        System.out.println(sum);

        Object[] things = new String[2];
        things[0] = "text";
        try {
            things[1] = TRANSPOSED ? new int[0] : "more";
            System.out.println(things[1].equals("more"));
        } catch (ArrayStoreException e) {
            System.out.println("no text");
        }
        byte[][][] cube = new byte[2][2][2];
        cube[1][1][1] = (byte) 200;
        byte[] copy = cube[1][1].clone();
        System.arraycopy(copy, 1, cube[0][0], 0, 1);
        System.out.println(cube[0][0][0] + " " + cube.length + " " + (cube[0] == cube[1]));
    }
}
