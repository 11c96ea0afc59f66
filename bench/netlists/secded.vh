// Corrects one wrong bit of BITS, and says if there are two: the check bits are those of Hamming's code, and one for all.
module `NAME (input [`BITS-1:0] d, input [`CHECKS-1:0] c, output reg [`BITS-1:0] q, output err, dbl);
  reg [`CHECKS-2:0] syndrome;
  integer i, place;
  wire odd = ^{d, c};
  assign err = odd || syndrome != 0;
  assign dbl = !odd && syndrome != 0;
  // The places of the data are the numbers from 3 on that are no power of two.
  always @* begin
    syndrome = c[`CHECKS-2:0];
    place = 2;
    for (i = 0; i < `BITS; i = i + 1) begin
      place = place + 1;
      if ((place & place - 1) == 0) place = place + 1;
      if (d[i]) syndrome = syndrome ^ place;
    end
    q = d;
    place = 2;
    for (i = 0; i < `BITS; i = i + 1) begin
      place = place + 1;
      if ((place & place - 1) == 0) place = place + 1;
      if (odd && syndrome == place) q[i] = !d[i];
    end
  end
endmodule
