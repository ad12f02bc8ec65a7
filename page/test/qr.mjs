// The page's QR codes, against codes that another encoder made: qrencode 4.1.1, by `qrencode -8 -l M` (the last one by `-l L`).
import { qrCode } from "../address.js";
import { done, makeMatch, same } from "./people.mjs";

// A text, the mask that was chosen, and the code's rows, dark squares as ones, in base 36. They are of versions 1, 3, 7 and 10.
const KNOWN = [
  ["http://a.b/", 6,
    `18qyn mxq9 wrbx wokd wt3x mvcx 18prz 1kw s0pj 11yry ckpb oun8 inia 3dq 18p9w mzfy wt8w ws98 wq0v mvvb
    18q20`],
  ["http://192.168.1.20:7000/?match=0-1", 0,
    `8t9oxr 4j5npd 6gtu1p 6grjh9 6hbal9 4ij3nl 8tz2pr 1mo0 5wc8wi 6fikq1 xltkn gi5m2 4sipnv go60d 31ny0z
    1aft0a 2w3osj 2k6iud 5sbuyz 2jcaui 61tey8 vaxj 8tikwr 4isil5 6h2dix 6gqahn 6hfezh 4igdqi 8tyea3`],
  ["https://games.example/club/r/07?server=wss%3A%2F%2Fmatches.example%2Fclub%2Fr%2F07&match=63-12345678901234567890", 5,
    `ce5tdkupr 6cxf3j77l 93m8ja82l 93j1espr1 932fp1i71 6c6hxph6p cenaj8hhb 1i0s3xfk 6db3b1x3i 43q45hvmy
    5u689mbxm 6vsqgx3uk 7xalviy7m 7ooo8x48b 8y3x2g2mk 1ykg3td5b 2bsc45qco 3qofvyxwl 4n8clfift bxzvdbwl2
    7rrngzwmw ak56sgcgu 2umvq4tp0 c4itqbs4f 4o41f667l 26tj630x1 2vsetwz7e 4ruuz2vfh 2ane3ikwg 3bvduesmf
    bhfjrhvy7 7hbgyx8i6 3exx5de37 bjkbn4wd0 hkqvakkq 5wo9mwstg 7i3se37qq 1nyeyhi7 cdrphkk0k 6c4q4mzvh
    932rwwyrc 9323kb7dr 92u9efus5 6c8bft9xo cens6yy3e`],
  ["x".repeat(260), 0,
    `135yn256470f k0xfsrg29tt srwegad8iu5 sp9zckzjxb1 soumk0ayusd k3d2ypcsgu9 137mi6kld9bz 31s1gyo4jk
    10xsntc620uc z7ua9vw5q99 2twvujy7ix3 ngbdh7vswr6 ac5c63vq83c pjmn8xyd4x9 9nnvws1v7nr mfbwrq9i2tu
    xlxetlpuv7c cbntt5lj6el epmpja6b4hz bq4t1apenki wf3y58z3j3s 5ntgfa0yt65 fxs28v44fwn iro6i2jz55e
    ctcxftca1kr pz7s35d0sa5 jmvp931h3p3 sf8rzrb10cy 1n6idp25ftk sglesu69o9p 13drrzexw5br ma6e4oj84tu
    f6kzulvfaco eexbvxwv5ot nab3maiaswn qpr82ghnlgy 10w84ft4zprc nio3xt36tn2 x7k9v907umt xbkcjh342nk
    f8vmdn8d6ax zsue00wbybx 65lwcn4x2hj 9i5h1epdunm lgz8ct5z3fs 3bkjdnca8p9 pp4ultc0ul3 12g71qpkvgj6
    h4xshmf2t4 3910ap5a1p 1376t81sbzo7 k5ebqmb4w7m sr13bm5m6m0 so8o20qgdem sqw2sp2nwqd k5h1y3pdu02
    138wc72t94ln`],
];

const row = (squares) => BigInt(`0b${squares.map(Number).join("")}`).toString(36);

export async function qr(scene) {
  for (const [text, mask, rows] of KNOWN) {
    const wanted = rows.split(/\s+/);
    same(qrCode(text, mask).map(row), wanted, `the code of ${text}`);
    // Left to itself the page takes one of the eight masks.
    const own = qrCode(text).map(row).join(" ");
    same([...Array(8).keys()].filter((one) => qrCode(text, one).map(row).join(" ") === own).length, 1, `one mask of ${text}`);
  }
  const size = (length) => qrCode("x".repeat(length))?.length ?? null;
  same([14, 15, 213, 214, 271, 272].map(size), [21, 25, 57, 53, 57, null], "how large a code is, up to the longest text");

  // The code on the page is that of the match's link.
  const ann = await scene.browser.page("ann");
  const { link } = await makeMatch(ann, scene.address, "pig", 2, "ann");
  const code = qrCode(link);
  const dark = code.flatMap((squares, y) => squares.flatMap((one, x) => one ? [`M${x + 4} ${y + 4}`] : []));
  same(await ann.value(`document.querySelector(".qr path").getAttribute("d").match(/M\\d+ \\d+/g)`), dark, "the code that is shown");
  same(await ann.value(`document.querySelector(".qr").getAttribute("viewBox")`), `0 0 ${code.length + 8} ${code.length + 8}`, "its quiet edge");
  await done(ann);
}
