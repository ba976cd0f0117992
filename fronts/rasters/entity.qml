<!DOCTYPE qgis [<!ENTITY w "wood">]>
<qgis><pipe><rasterrenderer type="paletted"><colorPalette><paletteEntry value="1" label="&w;" color="#228b22" alpha="255"/><paletteEntry value="2" label="heath" color="#9acd32" alpha="255"/><paletteEntry value="3" label="moor" color="#123456" alpha="255"/></colorPalette></rasterrenderer></pipe></qgis>
