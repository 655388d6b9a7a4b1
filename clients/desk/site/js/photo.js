// A photo for a card: small enough for phones, and always a JPEG, so that nothing else of the file
// (its place, its camera) goes into the book.

const SIDE = 400;
const QUALITY = 0.82;

/** The picture of a file as a data: address, at most 400 pixels wide and high. */
export async function readPhoto(file) {
  const picture = await createImageBitmap(file);
  const scale = Math.min(1, SIDE / Math.max(picture.width, picture.height));
  const canvas = document.createElement("canvas");
  canvas.width = Math.max(1, Math.round(picture.width * scale));
  canvas.height = Math.max(1, Math.round(picture.height * scale));
  const pen = canvas.getContext("2d");
  pen.fillStyle = "#fff";
  pen.fillRect(0, 0, canvas.width, canvas.height);
  pen.drawImage(picture, 0, 0, canvas.width, canvas.height);
  picture.close();
  return canvas.toDataURL("image/jpeg", QUALITY);
}
